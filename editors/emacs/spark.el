;;; spark.el --- check Ada sources with spark  -*- lexical-binding: t; -*-
;; `M-x spark-check' checks a program, and lists its reports and refusals as `M-x compile' does.
(require 'compile)

(defvar spark-command "spark-show --order *.ad[bs]"
  "The command that `spark-check' offers first.")

(defvar spark-line
  '("^\\(.+\\):\\([1-9][0-9]*\\):\\([1-9][0-9]*\\): [A-Z][0-9]+ .+$" 1 2 3)
  "A report or a refusal: its file, its line and its column.")

(define-compilation-mode spark-check-mode "spark"
  "The lines of a check by spark."
  (setq-local compilation-error-regexp-alist (list spark-line))
  ;; A column is a byte, and counts from 1.
  (setq-local compilation-error-screen-columns nil)
  (setq-local compilation-first-column 1))

(defun spark-check (command)
  "Check a program with COMMAND, in the folder of the current file."
  (interactive (list (read-shell-command "Check: " spark-command)))
  (compilation-start command 'spark-check-mode))

(provide 'spark)
;;; spark.el ends here
