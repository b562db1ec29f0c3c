;;; What Emacs's eglot does with the server, as `lsp_editors.py` wants it.  -*- lexical-binding: t -*-
;; The words are in a file of JSON, and so is what came of them.
(require 'json)
(require 'eglot)
(require 'flymake)

;; As docs/EDITORS.md says.
(add-hook 'nxml-mode-hook (lambda () (dolist (sign '(?< ?> ?/)) (modify-syntax-entry sign "."))))

(advice-add 'eglot-completion-at-point :around
  (lambda (complete)
    (if (derived-mode-p 'nxml-mode)
        (save-restriction (narrow-to-region (point-min) (point)) (funcall complete))
      (funcall complete))))

(defvar asked (let ((json-object-type 'alist) (json-array-type 'list)) (json-read-file (getenv "PVTAG_ASKED"))))
(defvar told nil)
;; The clocks of the client's own are for an idle machine.
(setq jrpc-default-request-timeout (alist-get 'seconds asked)
      eglot-connect-timeout (alist-get 'seconds asked)
      eglot-sync-connect t)

(defun asked (key) (alist-get key asked))
(defun tell (key value) (push (cons key value) told))
(defun text () (buffer-substring-no-properties (point-min) (point-max)))

(defun await (what fits)
  (let ((end (+ (float-time) (asked 'seconds))))
    (while (not (funcall fits))
      (when (> (float-time) end) (error "%s doesn't come: %S" what (flymake-diagnostics)))
      (accept-process-output nil 0.05))))

;; The version that the last diagnostics are of.
(defvar published -1)
(advice-add 'eglot-handle-notification :after
            (lambda (_server method &rest params)
              (when (eq method 'textDocument/publishDiagnostics) (setq published (or (plist-get params :version) -1)))))

(defun diagnostics ()
  "The diagnostics of the text as it is, or t where they haven't come."
  ;; No timer of an idle editor runs here.
  (eglot--signal-textDocument/didChange)
  (flymake-start)
  (or (< published eglot--versioned-identifier) (mapcar #'flymake-diagnostic-text (flymake-diagnostics))))

(defun are-missing ()
  (let ((told (diagnostics)))
    (and (listp told) (seq-some (lambda (each) (string-match-p "missing\\.\\'" each)) told))))

(defun place (line column)
  (goto-char (point-min))
  (forward-line (1- line))
  (forward-char column)
  (point))

(defun act (title from to)
  "Makes the code action TITLE on what stands from FROM up to TO."
  (let* ((actions (eglot-code-actions from to))
         (action (seq-find (lambda (each) (equal (plist-get each :title) title)) actions)))
    (unless action (error "no action %s: %S" title (mapcar (lambda (each) (plist-get each :title)) actions)))
    (undo-boundary)
    (eglot--read-execute-code-action (list action) (eglot--current-server-or-lose) (plist-get action :kind))
    (text)))

(defun take-back ()
  (undo-boundary)
  (let ((last-command nil) (inhibit-message t)) (undo-only 1))
  (text))

(defun run ()
  (find-file (asked 'file))
  (setq buffer-undo-list nil)
  (let ((eglot-server-programs (list (cons major-mode (asked 'server)))))
    (apply #'eglot--connect (eglot--guess-contact)))
  (await "the number of missing elements" #'are-missing)
  (tell 'diagnostics (vconcat (diagnostics)))

  (goto-char (place (nth 0 (asked 'type)) (nth 1 (asked 'type))))
  (undo-boundary)
  (insert "<")
  (let* ((found (eglot-completion-at-point))
         (names (all-completions "" (nth 2 found)))
         (chosen (seq-find (lambda (each) (equal (string-trim each) (asked 'choose))) names)))
    (tell 'labels (vconcat (mapcar (lambda (each) (string-trim (substring-no-properties each))) names)))
    (delete-region (nth 0 found) (point))
    (insert chosen)
    (funcall (plist-get (nthcdr 3 found) :exit-function) chosen 'finished))
  (tell 'completed (text))
  (erase-buffer)
  (insert (mapconcat #'identity (asked 'lines) "\n") "\n")
  (await "the diagnostics" #'are-missing)

  ;; In the middle of a word, as completion-at-point replaces what it counts to the name.
  (goto-char (+ 2 (place (nth 0 (asked 'type)) (nth 1 (asked 'type)))))
  (insert "<")
  (let* ((found (eglot-completion-at-point))
         (names (all-completions "" (nth 2 found)))
         (chosen (seq-find (lambda (each) (equal (string-trim each) (asked 'choose))) names)))
    (delete-region (nth 0 found) (nth 1 found))
    (insert chosen)
    (funcall (plist-get (nthcdr 3 found) :exit-function) chosen 'finished))
  (tell 'within (text))
  (erase-buffer)
  (insert (mapconcat #'identity (asked 'lines) "\n") "\n")
  (await "the diagnostics" #'are-missing)

  (let ((wrap (asked 'wrap)))
    (tell 'wrapped (act (nth 0 wrap) (place (nth 1 wrap) (nth 2 wrap)) (place (nth 1 wrap) (nth 3 wrap)))))
  (tell 'unwrapped (take-back))
  (await "the diagnostics" #'are-missing)
  (tell 'mended (act (asked 'mend) (point-min) (point-min)))
  (await "no diagnostics" (lambda () (null (diagnostics))))
  (tell 'undone (take-back))
  (await "the diagnostics" #'are-missing)
  (set-buffer-modified-p nil)
  (eglot-shutdown (eglot--current-server-or-lose) nil (asked 'seconds)))

(condition-case fault (run) (error (tell 'fault (error-message-string fault))))
(with-temp-file (getenv "PVTAG_TOLD") (insert (json-encode told)))
(kill-emacs 0)
