;; Asks the bridge as a user of Emacs does, with eglot, and writes what is found: `WHAT PLACE`, a line each.

(require 'eglot)
(require 'xref)

(define-derived-mode codenav-mode prog-mode "codenav")
(add-to-list 'auto-mode-alist '("\\.rs\\'" . codenav-mode))
(add-to-list 'eglot-server-programs (cons 'codenav-mode (split-string (getenv "CODENAV_LSP"))))
(setq eglot-sync-connect 120 eglot-connect-timeout 120 make-backup-files nil create-lockfiles nil)

(defun show-found (what items)
  (dolist (item items)
    (let ((marker (xref-location-marker (xref-item-location item))))
      (with-current-buffer (marker-buffer marker)
        (save-excursion
          (goto-char marker)
          (write-region (format "%s %s:%d:%d\n" what buffer-file-name (line-number-at-pos) (1+ (current-column)))
                        nil (getenv "CODENAV_OUT") t 'quiet))))))

(defun open-file (name)
  (find-file (expand-file-name name (getenv "CODENAV_HOME")))
  (unless (eglot-current-server)
    (eglot '(codenav-mode) (cons 'transient (getenv "CODENAV_HOME")) 'eglot-lsp-server (split-string (getenv "CODENAV_LSP")) "rust"))
  (unless (bound-and-true-p eglot--managed-mode) (eglot--maybe-activate-editing-mode)))

(defun go-to (text)
  (goto-char (point-min))
  (search-forward text)
  (goto-char (match-beginning 0)))

(open-file "user/src/lib.rs")
(go-to "fahrenheit(")
(show-found "definition" (xref-backend-definitions 'eglot "fahrenheit"))
(show-found "references" (xref-backend-references 'eglot "fahrenheit"))
(open-file "crate/src/lib.rs") ; whose project has tags
(show-found "names" (xref-backend-apropos 'eglot "AHREN"))
(open-file "user/src/lib.rs")
(defun show-line (what text)
  (write-region (format "%s %s\n" what text) nil (getenv "CODENAV_OUT") t 'quiet))
(defun show-place (what position)
  (save-excursion
    (goto-char position)
    (show-line what (format "%s:%d:%d" buffer-file-name (line-number-at-pos) (1+ (current-column))))))
(defun show-outline (entries)
  (dolist (entry entries)
    (if (consp (cdr entry)) (show-outline (cdr entry)) (show-place "outline" (cdr entry)))))
(show-outline (eglot-imenu))
(dolist (one (append (jsonrpc-request (eglot--current-server-or-lose) :textDocument/documentHighlight
                                      (eglot--TextDocumentPositionParams)) nil))
  (show-place "highlight" (car (eglot--range-region (plist-get one :range)))))
(show-line "renamed" (condition-case nil (progn (eglot-rename "other") "it") (error "nothing")))
(goto-char (point-min))
(insert "// unsaved\n\n")
(eglot--signal-textDocument/didChange) ; an idle timer does it where Emacs isn't in a batch
(go-to "fahrenheit(")
(show-found "edited" (xref-backend-definitions 'eglot "fahrenheit"))
(set-buffer-modified-p nil)
(kill-emacs 0)
