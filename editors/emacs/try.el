;;; try.el --- steps the race that loses a value by dap-mode, and tells where it stood -*- lexical-binding: t; -*-

;; In the top folder: emacs --batch -l editors/emacs/try.el ./cilk
;; The last line is `N stops and answers as they should be'.

;;; Code:

(package-initialize)
(require 'cl-lib)
(setq dap-auto-configure-features nil dap-auto-show-output nil)
(setq lsp-session-file (make-temp-name "/tmp/lsp") dap-breakpoints-file (make-temp-name "/tmp/breakpoints"))
(load (expand-file-name "editors/emacs/cilk.el"))
(setq cilk-program (expand-file-name (pop command-line-args-left)))

(defvar try-program (expand-file-name "programs/race.cilk"))
(defvar try-log (expand-file-name "programs/race_lost.log"))
(defvar try-good 0)
(defvar try-stopped nil)
(defvar try-shown nil)
(add-hook 'dap-stopped-hook (lambda (_session) (setq try-stopped t)))
(add-hook 'dap-stack-frame-changed-hook (lambda (_session) (setq try-shown t)))

(defun try-is (what got wanted)
  "Tell what was GOT of WHAT, and fail where it is not WANTED."
  (message "%s: %S" what got)
  (unless (equal got wanted) (error "%S was wanted" wanted))
  (cl-incf try-good))

(defun try-frame ()
  "Return the thread, the name and the line of the frame that is shown, and the line of the file on which point is."
  (let ((frame (dap--debug-session-active-frame (dap--cur-session))))
    (cons (dap--debug-session-thread-id (dap--cur-session))
          (and frame (list (gethash "name" frame) (gethash "line" frame)
                           (with-current-buffer (find-buffer-visiting try-program) (line-number-at-pos)))))))

(defun try-move (what move wanted)
  "Do MOVE, called WHAT, wait for the stop and the frame that it leads to, and compare that with WANTED."
  (setq try-stopped nil try-shown nil)
  (funcall move)
  (let ((until (+ (float-time) 20)))
    (while (not (and try-stopped try-shown))
      (when (> (float-time) until) (error "%s: no stop came" what))
      (accept-process-output nil 0.05)))
  (try-is what (try-frame) wanted))

(defun try-command (command)
  "Return what moves by the request COMMAND, which dap-mode has no key for."
  (lambda ()
    (dap--step command (dap--cur-session))))

(defun try-value (name)
  "Return what an editor shows of the variable NAME."
  (gethash "result" (dap-request (dap--cur-session) "evaluate" :expression name :context "hover")))

(find-file try-program)
(goto-char (point-min))
(forward-line 4)
(dap-breakpoint-add)
(try-move "launch" (lambda () (dap-debug (list :type "cilk" :name "race" :program try-program :log try-log))) '(1 "main" 8 8))
(try-is "breakpoint" (gethash "verified" (aref (vconcat (gethash try-program (dap--debug-session-breakpoints (dap--cur-session)))) 0)) t)
(try-move "step in" (lambda () (call-interactively #'dap-step-in)) '(2))
(try-move "step in" (lambda () (call-interactively #'dap-step-in)) '(1 "add" 4 4))
(try-move "continue" (lambda () (call-interactively #'dap-continue)) '(1 "add" 5 5))
(try-is "total" (try-value "total") "0")
(try-move "next" (lambda () (call-interactively #'dap-next)) '(1 "add" 6 6))
(try-is "total" (try-value "total") "10")
(try-move "step back" (try-command "stepBack") '(1 "add" 5 5))
(try-is "total" (try-value "total") "0")
(try-move "continue" (lambda () (call-interactively #'dap-continue)) '(2 "add" 5 5))
(try-move "reverse continue" (try-command "reverseContinue") '(1 "add" 5 5))
(try-move "reverse continue" (try-command "reverseContinue") '(1 "main" 8 8))
(try-is "threads" (length (gethash "threads" (dap-request (dap--cur-session) "threads"))) 2)
(call-interactively #'dap-disconnect)
(message "%d stops and answers as they should be" try-good)
