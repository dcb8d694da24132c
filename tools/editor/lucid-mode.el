;;; lucid-mode.el --- Lucid programs of Copperfinch -*- lexical-binding: t; -*-

;; Put this file into a folder of `load-path', and (require 'lucid-mode) into the init file.
;; M-x eglot starts the language server lucid-lsp in a buffer; `lucid-lsp-command' is another one.

;;; Code:

(defvar lucid-lsp-command '("lucid-lsp") "The command of the language server, as a list of words.")

(defvar lucid-mode-syntax-table
  (let ((table (make-syntax-table)))
    (modify-syntax-entry ?/ ". 124b" table)
    (modify-syntax-entry ?* ". 23" table)
    (modify-syntax-entry ?\n "> b" table)
    (modify-syntax-entry ?_ "w" table)
    table)
  "Comments and names of Lucid.")

(defconst lucid-font-lock-keywords
  `((,(regexp-opt '("const" "global" "memop" "event" "handle" "fun" "group" "if" "else" "return" "match" "with" "generate") 'words)
     . font-lock-keyword-face)
    (,(regexp-opt '("int" "bool" "void") 'words) . font-lock-type-face)
    (,(regexp-opt '("true" "false" "SELF") 'words) . font-lock-constant-face)
    (,(regexp-opt '("printf" "hash" "Array" "Event" "Sys") 'words) . font-lock-builtin-face))
  "The reserved words of Lucid.")

;;;###autoload
(define-derived-mode lucid-mode prog-mode "Lucid"
  "A mode for Lucid programs."
  (setq-local comment-start "// ")
  (setq-local comment-end "")
  (setq-local indent-tabs-mode nil)
  (setq-local font-lock-defaults '(lucid-font-lock-keywords)))

;;;###autoload
(add-to-list 'auto-mode-alist '("\\.luc\\'" . lucid-mode))

(with-eval-after-load 'eglot
  (add-to-list 'eglot-server-programs (cons 'lucid-mode lucid-lsp-command)))

(provide 'lucid-mode)
;;; lucid-mode.el ends here
