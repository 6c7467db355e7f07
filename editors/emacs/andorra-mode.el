;;; andorra-mode.el --- Pure Prolog as andorra reads it  -*- lexical-binding: t -*-

;; (add-to-list 'load-path ".../editors/emacs")
;; (require 'andorra-mode)
;; Files in .pl open in Perl's mode unless they begin with a comment of % or have a line that begins with ?-.
;; C-c C-c asks the query of the file, C-c C-q one that you type.

;;; Code:

(require 'compile)

(defgroup andorra nil "Pure Prolog as andorra reads it." :group 'languages)

(defcustom andorra-ask "ask" "The command that asks a query of files." :type 'string)

(defvar andorra-mode-syntax-table
  (let ((table (make-syntax-table)))
    (modify-syntax-entry ?_ "_" table)
    (modify-syntax-entry ?% "<" table)
    (modify-syntax-entry ?\n ">" table)
    (modify-syntax-entry ?/ ". 14" table)
    (modify-syntax-entry ?* ". 23b" table)
    (modify-syntax-entry ?' "\"" table)
    (modify-syntax-entry ?\" "." table)
    (modify-syntax-entry ?\\ "\\" table)
    (dolist (sign (append "+-<>=~:.?@#&$^" nil)) (modify-syntax-entry sign "." table))
    table))

(defvar andorra-font-lock-keywords
  '((":-\\|\\?-\\|-->" . font-lock-keyword-face)
    ("->\\|\\\\\\+\\|[!\"`]" . font-lock-warning-face)
    ("^[a-z][A-Za-z0-9_]*" . font-lock-function-name-face)
    ("\\_<\\(?:is\\|mod\\|rem\\|min\\|max\\)\\_>" . font-lock-builtin-face)
    ("\\_<\\(?:true\\|fail\\)\\_>" . font-lock-constant-face)
    ("\\_<[A-Z_][A-Za-z0-9_]*" . font-lock-variable-name-face)))

(defun andorra-ask (query)
  "Ask QUERY of the file of this buffer, or its own where QUERY is empty."
  (interactive "sQuery: ")
  (save-buffer)
  (compile (mapconcat #'shell-quote-argument
                      (append (list andorra-ask buffer-file-name) (unless (string= query "") (list query)))
                      " ")))

(defun andorra-ask-file ()
  "Ask the query of the file of this buffer."
  (interactive)
  (andorra-ask ""))

(defvar andorra-mode-map
  (let ((map (make-sparse-keymap)))
    (define-key map (kbd "C-c C-c") #'andorra-ask-file)
    (define-key map (kbd "C-c C-q") #'andorra-ask)
    map))

;;;###autoload
(define-derived-mode andorra-mode prog-mode "Andorra"
  "A mode for pure Prolog as andorra reads it."
  (setq-local comment-start "% " comment-end "" comment-start-skip "%+ *")
  (setq-local indent-tabs-mode nil)
  (setq-local font-lock-defaults '(andorra-font-lock-keywords)))

;;;###autoload
(add-to-list 'magic-mode-alist '(andorra-is-file-p . andorra-mode))

;;;###autoload
(defun andorra-is-file-p ()
  "Whether this buffer is of a file in .pl that looks as andorra's do."
  (and buffer-file-name (string-suffix-p ".pl" buffer-file-name)
       (or (looking-at "[ \t]*%") (save-excursion (re-search-forward "^\\?-" nil t)))))

(provide 'andorra-mode)
;;; andorra-mode.el ends here
