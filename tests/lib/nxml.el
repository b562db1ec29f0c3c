;; What nXML does, for the table of docs/EDITORS.md: writes a JSON object of what was found into the file that NXML_TOLD names.
;; NXML_FOLDER holds "letter.rnc", which is made of the letter's DTD, with attributes, "schemas.xml" and "swapped.xml".
(require 'nxml-mode) (require 'nxml-outln) (require 'rng-nxml) (require 'rng-valid) (require 'rng-loc) (require 'sgml-mode) (require 'json)
(setq rng-nxml-auto-validate-flag nil inhibit-message t)

(defun open (text &optional schema)
  "A buffer with this text, validated; point is where the text has a `|'."
  (switch-to-buffer (generate-new-buffer "one.xml"))
  (insert text)
  (nxml-mode)
  (goto-char (point-min))
  (if (search-forward "|" nil t) (delete-char -1))
  (rng-validate-mode 1)
  (if schema (rng-set-schema-file-1 schema))
  (errors))

(defun errors ()
  "What is wrong with the buffer: lines and messages."
  (save-excursion
    (while (rng-do-some-validation))
    (let (found)
      (dolist (each (sort (overlays-in (point-min) (1+ (point-max))) (lambda (one other) (< (overlay-start one) (overlay-start other)))))
        (if (eq (overlay-get each 'category) 'rng-error)
            (push (format "%d %s" (line-number-at-pos (overlay-start each)) (overlay-get each 'help-echo)) found)))
      (vconcat (nreverse found)))))

(defun completed ()
  "The completions before point, in the order in which they come."
  (let ((told (rng-completion-at-point)))
    (vconcat (and told (all-completions (buffer-substring-no-properties (nth 0 told) (point)) (nth 2 told))))))

(defun after (act)
  "The buffer's text after that."
  (funcall act)
  (buffer-substring-no-properties (point-min) (point-max)))

(defun rows ()
  (let ((draft "<letter><opener>Dear brother,</opener>\n<body><p>I have |met Mr Adams.</p></body></letter>\n"))
    (list
     (cons 'draft (open draft "letter.rnc"))
     (cons 'swapped (open (with-temp-buffer (insert-file-contents "swapped.xml") (buffer-string)) "letter.rnc"))
     (cons 'half (progn (open draft "letter.rnc") (insert "<") (errors)))
     (cons 'names (progn (open "<letter><opener><salute/></opener><body><p>I <|" "letter.rnc") (completed)))
     (cons 'fits (progn (open "<letter><opener><salute/></opener><body><p/></body> <|" "letter.rnc") (completed)))
     (cons 'attributes (progn (open "<letter |" "letter.rnc") (completed)))
     (cons 'values (progn (open "<letter kind=\"|" "letter.rnc") (completed)))
     (cons 'ends (progn (open "<letter><opener></|" "letter.rnc") (completed)))
     (cons 'finished (progn (open "<letter><opener>|" "letter.rnc") (after #'nxml-finish-element)))
     (cons 'hover (vconcat (remq t eldoc-documentation-functions)))
     (cons 'definitions (vconcat (remq t xref-backend-functions)))
     ;; No command of these names: what would wrap, insert what is missing, fix, rename, find.
     (cons 'commands (vconcat (mapcar #'symbol-name (apropos-internal
       "^\\(nxml\\|rng\\)-.*\\(wrap\\|surround\\|missing\\|fix\\|rename\\|definition\\|reference\\|catalog\\|model\\|link\\)" #'commandp))))
     (cons 'outline (progn (open "<a>\n<section>\n<title>One</title>\n<p>x</p>\n</section>\n</a>\n") (nxml-hide-all-text-content)
                           (length (seq-filter (lambda (each) (eq (overlay-get each 'category) 'nxml-outline-display-hide))
                                               (overlays-in (point-min) (point-max))))))
     (cons 'other (progn (open "<a>|<p><b>x</b></p> y</a>") (forward-sexp) (buffer-substring-no-properties 4 (point))))
     (cons 'pair (progn (open "<a><p|>x</p></a>") (sgml-electric-tag-pair-mode 1) (after (lambda () (insert "q")))))
     (cons 'indented (progn (open "<a>\n<p>Some\n<b>bold</b>\nwords</p>\n</a>") (after (lambda () (indent-region (point-min) (point-max))))))
     (cons 'associated (file-name-nondirectory (or (progn (open "<letter/>") (setq buffer-file-name (expand-file-name "my.letter.xml"))
                                                          (let ((rng-schema-locating-files '("schemas.xml"))) (rng-locate-schema-file))) "")))
     (cons 'formed (open "<a>\n<b></a>"))
     (cons 'required (progn (open "<let|" "letter.rnc")
                            (after (lambda () (let ((completion-at-point-functions '(rng-completion-at-point))) (completion-at-point))))))
     (cons 'model (or (progn (open "<?xml-model href=\"letter.rnc\"?>\n<letter/>") (setq buffer-file-name (expand-file-name "other.xml"))
                             (let ((rng-schema-locating-files '("schemas.xml"))) (rng-locate-schema-file))) ""))
     (cons 'entity (open "<!DOCTYPE a [<!ENTITY e \"]]>\">]>\n<a>&e;</a>"))
     (cons 'dtd (open "<!DOCTYPE a SYSTEM \"nothing.dtd\">\n<a><b/></a>"))
     (cons 'version emacs-version))))

(let ((told (condition-case fault (rows) (error (list (cons 'fault (format "%S" fault)))))))
  (with-temp-file (getenv "NXML_TOLD") (insert (json-encode told))))
