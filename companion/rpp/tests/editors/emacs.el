;;; emacs.el --- Emacs reads editors/emacs  -*- lexical-binding: t -*-

;; `emacs --batch -q -l emacs.el', with $RPP_TOP the repository and $RPP_FOLDER a folder to write in.  It writes a line `ok NAME',
;; `FAILED NAME: why' or `skipped NAME: why' for each trial into the file `said' there.  Eglot and dap-mode are those of Debian.
;; If $RPP_INSTALLED is set, the mode and the command are as a package installed them.

;;; Code:

(require 'cl-lib)
(defvar top (getenv "RPP_TOP"))
(defvar folder (file-name-as-directory (getenv "RPP_FOLDER")))
(defvar said nil)
(unless (getenv "RPP_INSTALLED")
  (add-to-list 'load-path (expand-file-name "editors/emacs" top))
  (setq rpp-command (expand-file-name "rpp" top)))
(require 'rpp-mode)
(ignore-errors (package-initialize))
(setq compilation-ask-about-save nil)

(defun try (name found wanted)
  "Note whether FOUND is WANTED under NAME."
  (push (if (equal found wanted) (format "ok %s" name) (format "FAILED %s: %S and not %S" name found wanted)) said))

(defun open-file (name &rest lines)
  "A buffer of a new file NAME with LINES."
  (let ((file (expand-file-name name folder)))
    (with-temp-file file (insert (mapconcat #'identity lines "\n") "\n"))
    (find-file file)))

(defun face (text)
  "The face of the first TEXT in this buffer."
  (goto-char (point-min))
  (search-forward text)
  (get-text-property (match-beginning 0) 'face))

(defun wait-until (holds)
  "Let processes speak until HOLDS does, but no longer than a while."
  (let ((left 600))
    (while (and (> left 0) (not (funcall holds)))
      (accept-process-output nil 0.1)
      (setq left (1- left)))
    (funcall holds)))

(defun highlighting ()
  "Modes and faces."
  (open-file "words.rpp" "class P // remark" "  int x'" "method main()" "  x' += 1 * 2")
  (font-lock-ensure)
  (try "file type" major-mode 'rpp-mode)
  (try "words" (mapcar #'face '("class" "P" "remark" "int" "x'" "main" "*"))
       '(font-lock-keyword-face font-lock-type-face font-lock-comment-face font-lock-type-face nil
         font-lock-function-name-face font-lock-warning-face))
  (open-file "words.pisa" "top: ADDI $3 -40 ; ADD" "STATIC 3" "MARK 1 4 28" "NAME 40 EXCH")
  (font-lock-ensure)
  (try "assembly" (cons major-mode (mapcar #'face '("top:" "ADDI" "$3" "ADD\n" "STATIC" "MARK" "NAME" "EXCH")))
       '(pisa-mode font-lock-constant-face font-lock-builtin-face font-lock-variable-name-face font-lock-comment-face
         font-lock-preprocessor-face font-lock-preprocessor-face font-lock-preprocessor-face font-lock-variable-name-face)))

(defun indentation ()
  "An example without its indentation gets it back."
  (let* ((wanted (with-temp-buffer (insert-file-contents (expand-file-name "examples/list.rpp" top)) (buffer-string))))
    (open-file "flat.rpp" (replace-regexp-in-string "^ +" "" (string-trim-right wanted)))
    (indent-region (point-min) (point-max))
    (try "indentation" (buffer-string) wanted)
    (set-buffer-modified-p nil)))

(defun compiling ()
  "`compile' finds the place of a refusal."
  (open-file "wrong.rpp" "class P" "  int x" "method main()" "  x += x")
  (let* ((source (current-buffer)) (buffer (compile compile-command)))
    (wait-until (lambda () (not (process-live-p (get-buffer-process buffer)))))
    (with-current-buffer buffer (compilation--ensure-parse (point-max)))
    (let ((next-error-last-buffer buffer)) (ignore-errors (next-error 1 t)))
    (try "compile" (with-current-buffer source (list (line-number-at-pos) (current-column))) '(4 2))))

(defun server ()
  "Eglot's session with the language server."
  (let ((buffer (open-file "served.rpp" "class P" "  int x" "method main()" "  x += 1" "  x += x")))
    (call-interactively #'eglot)
    (wait-until #'eglot-managed-p)
    (flymake-start)
    (wait-until #'flymake-diagnostics)
    (let ((found (car (flymake-diagnostics))))
      (try "refusal" (list (line-number-at-pos (flymake-diagnostic-beg found)) (not (not (string-match "SelfUpdate" (flymake-diagnostic-text found)))))
           '(5 t)))
    (goto-char (point-max))
    (search-backward "x += x")
    (replace-match "x  += 2")
    ;; (Eglot sends changes when Emacs is idle, which it never is in batch)
    (eglot--signal-textDocument/didChange)
    (goto-char (point-min))
    (search-forward "x += 1")
    (backward-char 6)
    (eglot-rename "total")
    (eglot-format-buffer)
    (try "renamed and laid out" (buffer-string) "class P\n  int total\n\nmethod main()\n  total += 1\n  total += 2\n")
    (set-buffer-modified-p nil)
    (with-current-buffer buffer (eglot-shutdown (eglot-current-server)))))

(defun debugger ()
  "The session of dap-mode with the debug adapter, both ways."
  (let* ((source (buffer-file-name (open-file "run.rpp" "class P" "  int x" "method main()" "  x += 1" "  x += 2" "  x += 3")))
         (stops 0) (dap-auto-configure-features nil) (dap-auto-show-output nil) (lines nil))
    (add-hook 'dap-stopped-hook (lambda (_) (setq stops (1+ stops))))
    (dap-start-debugging (list :type "rpp" :request "launch" :name "trial" :program source :dap-server-path (list rpp-command "dap")
                               :stopOnEntry t))
    (dolist (move '(nil dap-step-in dap-next rpp-dap-step-back dap-next dap-next rpp-dap-step-back rpp-dap-reverse-continue))
      (let ((before stops))
        (when move (funcall move (dap--cur-session)))
        (wait-until (lambda () (and (or (not move) (> stops before)) (dap--cur-session) (dap--debug-session-active-frame (dap--cur-session)))))
        (push (gethash "line" (dap--debug-session-active-frame (dap--cur-session))) lines)))
    (try "debugger" (nreverse lines) '(4 5 6 5 6 0 6 4))
    (dap-disconnect (dap--cur-session))))

(defun trial (name feature action)
  "Run ACTION under NAME where FEATURE can be loaded."
  (if (and feature (not (require feature nil t)))
      (push (format "skipped %s: there is no %s" name feature) said)
    (condition-case why (funcall action)
      (error (push (format "FAILED %s: %S" name why) said)))))

(trial "highlighting" nil #'highlighting)
(trial "indentation" nil #'indentation)
(trial "compile" nil #'compiling)
(trial "language server" 'eglot #'server)
(trial "debugger" 'dap-mode #'debugger)
(with-temp-file (expand-file-name "said" folder) (insert (mapconcat #'identity (nreverse said) "\n") "\n"))
;;; emacs.el ends here
