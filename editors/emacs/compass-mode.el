;;; compass-mode.el --- COMPASS, the assembly language of Control Data's 6000 series  -*- lexical-binding: t -*-

;;; Commentary:

;; The columns and comments of sources, and `compass server' by eglot.  For
;; Emacs 29 and later, and for 28 with the package eglot.

;;; Code:

(defvar eglot-server-programs)
(declare-function eglot-ensure "eglot")

(defvar compass-mode-map
  (let ((map (make-sparse-keymap)))
    (define-key map (kbd "TAB") #'tab-to-tab-stop)
    ;; From Emacs 30 on this key would indent statements.
    (define-key map (kbd "M-q") #'fill-paragraph)
    map)
  "The keys of `compass-mode'.")

(defvar compass-mode-syntax-table
  (let ((table (make-syntax-table prog-mode-syntax-table)))
    (modify-syntax-entry ?. "_" table)
    (modify-syntax-entry ?= "_" table)
    table)
  "The characters of names in `compass-mode'.")

(defun compass-mode-leave-statements (_justify)
  "Tell that nothing is to be filled where no comment stands."
  (not (eq (char-after (line-beginning-position)) ?*)))

;;;###autoload
(define-derived-mode compass-mode prog-mode "Compass"
  "A mode for sources of COMPASS.
Operations begin in column 11, operands in 18 and comments in 30, by
custom.  No line may have a tab, and a comment begins in column 1."
  (setq-local indent-tabs-mode nil
              tab-stop-list '(10 17 29 37)
              indent-line-function #'ignore
              fill-column 72
              fill-paragraph-function #'compass-mode-leave-statements
              comment-start "*"
              comment-start-skip "^\\*"
              comment-padding ""
              comment-style 'plain
              comment-column 29)
  (electric-indent-local-mode -1))

;;;###autoload
(add-to-list 'auto-mode-alist '("\\.cps\\'" . compass-mode))

(add-hook 'compass-mode-hook #'eglot-ensure)

(defun compass-mode-show-both ()
  "Show what an operation takes and the rows of the name beside it.
Else the one would hide the other."
  (when (derived-mode-p 'compass-mode)
    (setq-local eldoc-documentation-strategy #'eldoc-documentation-compose)))

(add-hook 'eglot-managed-mode-hook #'compass-mode-show-both)

(with-eval-after-load 'eglot
  (add-to-list 'eglot-server-programs '(compass-mode "compass" "server")))

(provide 'compass-mode)
;;; compass-mode.el ends here
