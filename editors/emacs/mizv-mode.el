;;; mizv-mode.el --- Articles that mizv checks -*- lexical-binding: t -*-

;;; Commentary:

;; Put this file into a folder of `load-path' and write (require 'mizv-mode) into the init file.  `C-c C-c' checks the article of
;; the buffer by mizv-show, which has to be on the path; `next-error' goes from fault to fault.

;;; Code:

(require 'compile)

(defconst mizv-mode-words
  '((font-lock-preprocessor-face "environ" "vocabularies" "notations" "constructors" "registrations" "definitions" "theorems" "schemes" "requirements" "equalities" "expansions" "begin")
    (font-lock-type-face "theorem" "scheme" "definition" "registration" "notation" "reserve" "redefine" "struct" "attr" "mode" "func" "pred" "cluster" "synonym" "antonym" "identify" "reduce" "canceled")
    (font-lock-keyword-face "proof" "now" "hereby" "suppose" "case" "end" "per" "cases" "let" "assume" "given" "take" "thus" "hence" "then" "consider" "reconsider" "set" "deffunc" "defpred" "thesis" "such" "that" "as" "by" "from" "provided")
    (font-lock-builtin-face "for" "ex" "st" "holds" "being" "be" "not" "or" "implies" "iff" "contradiction" "is" "non" "the" "it" "object" "in" "where" "with")
    (font-lock-constant-face "and" "are" "asymmetry" "coherence" "commutativity" "compatibility" "connectedness" "consistency" "correctness" "def" "do" "does" "equals" "exactly" "existence" "idempotence" "if" "involutiveness" "irreflexivity" "means" "of" "otherwise" "over" "projectivity" "qua" "reducibility" "reflexivity" "sch" "sethood" "symmetry" "to" "transitivity" "uniqueness"))
  "The reserved words, by the face that they have.")

(defconst mizv-mode-font-lock
  (append
   (mapcar (lambda (row) (list (regexp-opt (cdr row) 'symbols) 1 `(quote ,(car row)))) mizv-mode-words)
   '(("\\_<[A-Z][A-Z0-9_]\\{0,7\\}:\\(?:def \\|sch \\)?[0-9]+" . font-lock-variable-name-face)
     ("\\_<\\([A-Za-z_][A-Za-z0-9_']*\\):\\(?:[^:]\\|$\\)" 1 font-lock-function-name-face)))
  "What is shown of an article, beside comments.")

(defvar mizv-mode-syntax-table
  (let ((table (make-syntax-table)))
    (modify-syntax-entry ?_ "_" table)
    (modify-syntax-entry ?' "_" table)
    (modify-syntax-entry ?: "." table)
    (modify-syntax-entry ?\n ">" table)
    table)
  "Syntax of articles; what makes `::' a comment is `mizv-mode-comments'.")

(defconst mizv-mode-comments
  (syntax-propertize-rules ("\\(:\\):.*$" (1 "<")))
  "Comments begin with two colons and end with the line.")

(defun mizv-check ()
  "Check the article of the buffer, and list its faults."
  (interactive)
  (save-buffer)
  (compile (concat "mizv-show " (shell-quote-argument (file-name-base buffer-file-name)))))

(defvar mizv-mode-map
  (let ((map (make-sparse-keymap)))
    (define-key map (kbd "C-c C-c") #'mizv-check)
    map)
  "Keys of articles.")

;;;###autoload
(define-derived-mode mizv-mode prog-mode "Miz"
  "Major mode for articles that mizv checks."
  (setq-local comment-start ":: ")
  (setq-local comment-start-skip "::+[ \t]*")
  (setq-local comment-end "")
  (setq-local indent-tabs-mode nil)
  (setq-local syntax-propertize-function mizv-mode-comments)
  (setq-local font-lock-defaults '(mizv-mode-font-lock)))

;;;###autoload
(add-to-list 'auto-mode-alist '("\\.miz\\'" . mizv-mode))

(add-to-list 'compilation-error-regexp-alist-alist
             '(mizv "^\\([^: \n]+\\.miz\\):\\([0-9]+\\):\\([0-9]+\\): error: " 1 2 3 2))
(add-to-list 'compilation-error-regexp-alist 'mizv)

(provide 'mizv-mode)

;;; mizv-mode.el ends here
