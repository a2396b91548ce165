;;; eglot.el --- Starts `parbegin lsp' from Emacs over a text  -*- lexical-binding: t -*-
;;
;;     PARBEGIN=PROGRAM emacs --batch -l eglot.el refused.pb
;;
;; The integer y of refused.pb is not declared.  Each check writes a line, and the status is 0 if all is as wanted.
(require 'package)
(package-initialize)
(require 'eglot)
(require 'flymake)

(define-derived-mode parbegin-mode prog-mode "parbegin"
  (setq-local comment-start "// "))
(add-to-list 'eglot-server-programs (list 'parbegin-mode (getenv "PARBEGIN") "lsp"))

(defvar wrong 0)

(defun check (what got wanted)
  (unless (equal got wanted) (setq wrong (1+ wrong)))
  (princ (if (equal got wanted) (format "ok    %s\n" what) (format "WRONG %s: %S\n" what got))))

(defun wait-until (what holds)
  (let ((left 200))
    (while (and (> left 0) (not (funcall holds)))
      (accept-process-output nil 0.05)
      (setq left (1- left)))
    (unless (funcall holds) (check what "nothing in 10 seconds" "something"))))

(defun shown ()
  (mapcar (lambda (one)
            (let ((begin (flymake-diagnostic-beg one)))
              (save-excursion
                (goto-char begin)
                (list (line-number-at-pos) (- begin (line-beginning-position)) (- (flymake-diagnostic-end one) begin)))))
          (flymake-diagnostics)))

(defun line-of (number)
  (save-excursion
    (goto-char (point-min))
    (forward-line number)
    (buffer-substring-no-properties (line-beginning-position) (line-end-position))))

(defun take-action ()
  "Takes the action that declares y."
  (goto-char (point-min))
  (search-forward "x := y")
  (let* ((place (list :line 3 :character 30))
         (actions (jsonrpc-request (eglot--current-server-or-lose) :textDocument/codeAction
                                   (list :textDocument (eglot--TextDocumentIdentifier)
                                         :range (list :start place :end place)
                                         :context (list :diagnostics [])))))
    (check "the action that mends the text" (mapcar (lambda (a) (plist-get a :title)) actions) '("declare integer y"))
    (eglot--apply-workspace-edit (plist-get (aref actions 0) :edit))
    (check "the text that it leaves" (line-of 3)
           "begin integer x, y; x := 1; x := y + 1; hold 1 of tape do skip od end")))

(defun ask-names ()
  "Asks where y is declared, and gives it another name."
  (goto-char (point-min))
  (search-forward "x := y")
  (backward-char 1)
  (let ((found (xref-backend-definitions 'eglot "LSP identifier at point.")))
    (check "where y is declared" (mapcar (lambda (one) (xref-location-line (xref-item-location one))) found) '(4)))
  (let ((shown (save-excursion
                 (goto-char (point-min))
                 (search-forward "process ")
                 (jsonrpc-request (eglot--current-server-or-lose) :textDocument/hover
                                  (eglot--TextDocumentPositionParams)))))
    (check "what process a may hold" (plist-get (plist-get shown :contents) :value)
           "process a\nmay hold 1 of tape at once (line 4)"))
  (eglot-rename "total")
  (check "y is total now" (line-of 3)
         "begin integer x, total; x := 1; x := total + 1; hold 1 of tape do skip od end"))

(let ((file (expand-file-name (car command-line-args-left))))
  (setq command-line-args-left nil)
  (with-current-buffer (find-file-noselect file)
    (parbegin-mode)
    (let ((eglot-sync-connect 10))
      (apply #'eglot (eglot--guess-contact))
      (flymake-mode 1)
      (flymake-start)
      (wait-until "diagnostics of the first text" (lambda () (flymake-diagnostics)))
      (check "the refusal at its range" (shown) '((4 30 1)))
      (take-action)
      (eglot--signal-textDocument/didChange)
      (wait-until "diagnostics of the mended text" (lambda () (null (flymake-diagnostics))))
      (check "none after the mend" (shown) nil)
      (ask-names)
      (eglot-shutdown (eglot--current-server-or-lose))
      (set-buffer-modified-p nil)))
  (kill-emacs (if (= wrong 0) 0 1)))
;;; eglot.el ends here
