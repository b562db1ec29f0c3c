;;; One of many wraps, a definition and references, in Emacs's eglot: what came of them is written as JSON into "told".  -*- lexical-binding: t -*-
;; The folder holds "many.xml", and "server", whose words begin the server.
(require 'json) (require 'eglot) (require 'flymake) (require 'xref)
(defvar seconds (string-to-number (getenv "PVTAG_SECONDS")))
(defvar told nil)
;; The clocks of the client's own are for an idle machine, and nobody is there to be asked.
(setq eglot-sync-connect t jrpc-default-request-timeout seconds eglot-connect-timeout seconds eglot-confirm-server-initiated-edits nil)

(defun found (backend)
  (funcall backend 'eglot (xref-backend-identifier-at-point 'eglot)))

(defun run ()
  (find-file "many.xml")
  (let ((eglot-server-programs (list (cons major-mode (split-string (with-temp-buffer (insert-file-contents "server") (buffer-string)) "\n" t)))))
    (apply #'eglot--connect (eglot--guess-contact)))
  (goto-char (point-min))
  (search-forward "one")
  (let* ((actions (eglot-code-actions (- (point) 3) (point)))
         (many (seq-find (lambda (each) (string-prefix-p "Wrap in…" (plist-get each :title))) actions)))
    (push (cons 'actions (length actions)) told)
    (advice-add 'completing-read :override (lambda (&rest _) "<n29>"))
    (eglot--read-execute-code-action (list many) (eglot--current-server-or-lose) (plist-get many :kind)))
  (let ((end (+ (float-time) seconds)))
    (while (not (string-match-p "<n29>one" (buffer-string)))
      (when (> (float-time) end) (error "the wrap doesn't come"))
      (accept-process-output nil 0.05)))
  (push (cons 'text (buffer-string)) told)
  ;; No timer of an idle editor runs here.
  (eglot--signal-textDocument/didChange)
  (goto-char (point-min))
  (search-forward "<n2")
  (push (cons 'definition (mapcar (lambda (each) (xref-location-line (xref-item-location each))) (found #'xref-backend-definitions))) told)
  (push (cons 'references (length (found #'xref-backend-references))) told)
  (set-buffer-modified-p nil)
  (eglot-shutdown (eglot--current-server-or-lose) nil seconds))

(condition-case fault (run) (error (push (cons 'fault (error-message-string fault)) told)))
(with-temp-file "told" (insert (json-encode told)))
(kill-emacs 0)
