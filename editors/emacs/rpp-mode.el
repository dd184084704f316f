;;; rpp-mode.el --- ROOPL++ and PISA: highlighting, indentation, compile, language server, debugger  -*- lexical-binding: t -*-

;; Version: 0.1
;; Package-Requires: ((emacs "27.1"))
;; Keywords: languages

;;; Commentary:

;; (add-to-list 'load-path ".../editors/emacs") and (require 'rpp-mode).  M-x compile checks the file; M-x eglot starts the
;; language server; with dap-mode or dape, M-x dap-debug or M-x dape steps through a run both ways.

;;; Code:

(defgroup rpp nil "Programs in ROOPL++." :group 'languages)

(defcustom rpp-command "rpp" "The command that checks, serves and debugs." :type 'string)

(defcustom rpp-indent-offset 2 "The columns by which a block is indented." :type 'integer :safe #'integerp)

(defvar rpp-mode-font-lock-keywords
  `((,(regexp-opt '("class" "inherits" "method" "skip" "if" "then" "else" "fi" "from" "do" "loop" "until" "local"
                    "delocal" "construct" "destruct" "new" "delete" "copy" "uncopy" "call" "uncall")
                  'symbols)
     . font-lock-keyword-face)
    ("\\_<\\(?:class\\|inherits\\)\\_>[ \t]+\\([A-Za-z][A-Za-z0-9_']*\\)" 1 font-lock-type-face)
    ("\\_<method\\_>[ \t]+\\([A-Za-z][A-Za-z0-9_']*\\)" 1 font-lock-function-name-face)
    ("\\_<int\\_>" . font-lock-type-face)
    ("\\_<nil\\_>" . font-lock-constant-face)
    ("[*%]\\|/\\(?:[^/]\\|$\\)" . font-lock-warning-face)))

(defvar rpp-mode-syntax-table
  (let ((table (make-syntax-table)))
    (modify-syntax-entry ?/ ". 12" table)
    (modify-syntax-entry ?\n ">" table)
    (modify-syntax-entry ?' "_" table)
    (modify-syntax-entry ?\" "." table)
    table))

(defconst rpp--opens "\\_<\\(?:then\\|do\\|else\\|loop\\)[ \t]*\\(?://.*\\)?$"
  "The end of a line after which a block begins.")

(defun rpp--begins-with (words)
  "Whether this line begins with one of WORDS, parted by \\|."
  (save-excursion
    (back-to-indentation)
    (looking-at-p (concat "\\(?:" words "\\)\\_>"))))

(defun rpp--level-below ()
  "The indentation of a statement after the last line that is not empty."
  (save-excursion
    (forward-line 0)
    (skip-chars-backward " \t\n")
    (cond ((bobp) 0)
          ((or (rpp--begins-with "class\\|method\\|local\\|construct")
               (progn (forward-line 0) (re-search-forward rpp--opens (line-end-position) t)))
           (+ (current-indentation) rpp-indent-offset))
          (t (current-indentation)))))

(defun rpp-indent-line ()
  "Indent this line by the line above it and by its own first word."
  (let ((level (cond ((rpp--begins-with "class\\|method") 0)
                     ((rpp--begins-with "else\\|fi\\|loop\\|until\\|delocal\\|destruct")
                      (- (rpp--level-below) rpp-indent-offset))
                     (t (rpp--level-below)))))
    (save-excursion (indent-line-to (max 0 level)))
    (when (< (current-column) (current-indentation)) (back-to-indentation))))

;;;###autoload
(define-derived-mode rpp-mode prog-mode "ROOPL++"
  "Mode for programs in ROOPL++."
  (setq-local comment-start "// "
              comment-start-skip "//+[ \t]*"
              indent-tabs-mode nil
              indent-line-function #'rpp-indent-line
              imenu-generic-expression '((nil "^[ \t]*\\(?:class\\|method\\)[ \t]+\\([A-Za-z][A-Za-z0-9_']*\\)" 1))
              font-lock-defaults '(rpp-mode-font-lock-keywords)
              compile-command (concat (shell-quote-argument rpp-command) " check "
                                      (if buffer-file-name (shell-quote-argument buffer-file-name) ""))))

(defvar pisa-mode-font-lock-keywords
  `(("\\_<\\(NAME\\)[ \t]+[0-9]+[ \t]+\\([A-Za-z][A-Za-z0-9_']*\\)"
     (1 font-lock-preprocessor-face) (2 font-lock-variable-name-face))
    ("^[ \t]*\\([A-Za-z_][A-Za-z0-9_]*:\\)" 1 font-lock-constant-face)
    (,(regexp-opt '("START" "FINISH" "BRA" "RBRA" "BEQ" "BNE" "BGEZ" "BGTZ" "BLEZ" "BLTZ" "SWAPBR") 'symbols)
     . font-lock-keyword-face)
    (,(regexp-opt '("DATA" "STATIC" "MARK") 'symbols) . font-lock-preprocessor-face)
    (,(regexp-opt '("ADD" "SUB" "XOR" "NEG" "ADDI" "XORI" "RL" "RR" "RLV" "RRV" "ANDX" "ORX" "NORX" "SLTX" "ANDIX" "ORIX"
                    "SLLX" "SRLX" "SRAX" "SLLVX" "SRLVX" "SRAVX" "EXCH")
                  'symbols)
     . font-lock-builtin-face)
    ("\\$\\(?:3[01]\\|[12]?[0-9]\\)\\_>" . font-lock-variable-name-face)))

;;;###autoload
(define-derived-mode pisa-mode prog-mode "PISA"
  "Mode for PISA assembly."
  :syntax-table (let ((table (make-syntax-table)))
                  (modify-syntax-entry ?\; "<" table)
                  (modify-syntax-entry ?\n ">" table)
                  (modify-syntax-entry ?' "_" table)
                  (modify-syntax-entry ?\" "." table)
                  table)
  (setq-local comment-start "; " font-lock-defaults '(pisa-mode-font-lock-keywords)))

;;;###autoload
(add-to-list 'auto-mode-alist '("\\.rpp\\'" . rpp-mode))
;;;###autoload
(add-to-list 'auto-mode-alist '("\\.pisa\\'" . pisa-mode))

(defvar eglot-server-programs)
(with-eval-after-load 'eglot
  (add-to-list 'eglot-server-programs (cons 'rpp-mode (lambda (&rest _) (list rpp-command "lsp")))))

(declare-function dap-register-debug-provider "dap-mode")
(declare-function dap-register-debug-template "dap-mode")
(with-eval-after-load 'dap-mode
  (dap-register-debug-provider "rpp" #'rpp-dap-configuration)
  (dap-register-debug-template "ROOPL++ both ways" '(:type "rpp" :request "launch" :name "ROOPL++ both ways")))

(defun rpp-dap-configuration (given)
  "The launch arguments for dap-mode: GIVEN, and defaults for the rest."
  (let ((made (copy-sequence given)))
    (unless (plist-get made :program) (setq made (plist-put made :program buffer-file-name)))
    (unless (plist-member made :stopOnEntry) (setq made (plist-put made :stopOnEntry t)))
    (plist-put made :dap-server-path (list rpp-command "dap"))))

(declare-function dap--step "dap-mode")
(declare-function dap--cur-session-or-die "dap-mode")

(defun rpp-dap-step-back (session)
  "Undo the last statement of SESSION's run, over calls."
  (interactive (list (dap--cur-session-or-die)))
  (dap--step "stepBack" session))

(defun rpp-dap-reverse-continue (session)
  "Undo statements of SESSION's run, up to a breakpoint or the start."
  (interactive (list (dap--cur-session-or-die)))
  (dap--step "reverseContinue" session))

(defvar dape-configs)
(with-eval-after-load 'dape
  (add-to-list 'dape-configs
               `(rpp modes (rpp-mode) command ,rpp-command command-args ("dap")
                     :type "rpp" :request "launch" :program dape-buffer-default :stopOnEntry t)))

(provide 'rpp-mode)
;;; rpp-mode.el ends here
