;;; cilk.el --- steps a recorded schedule of Cilk 5.4 by `cilk dap' -*- lexical-binding: t; -*-

;; For dap-mode. `M-x dap-debug' asks for a program and its log.

;;; Code:

(require 'dap-mode)

(defvar cilk-program "cilk"
  "The built program `cilk'.")

(defun cilk-dap-fill (launch)
  "Say in LAUNCH how the adapter is started, and ask for what it does not name."
  (dap--put-if-absent launch :request "launch")
  (dap--put-if-absent launch :dap-server-path (list cilk-program "dap"))
  (unless (plist-get launch :program)
    (setq launch (plist-put launch :program (expand-file-name (read-file-name "Program: " nil nil t)))))
  (unless (plist-get launch :log)
    (setq launch (plist-put launch :log (expand-file-name (read-file-name "Log: " nil nil t)))))
  launch)

(dap-register-debug-provider "cilk" #'cilk-dap-fill)
(dap-register-debug-template "Cilk: a recorded schedule" (list :type "cilk" :request "launch" :name "schedule"))

(provide 'cilk)
;;; cilk.el ends here
