;;; pedx.el --- pedx as a language server, by eglot  -*- lexical-binding: t -*-

;; eglot is a part of Emacs since version 29; before, it is the package `eglot' (Debian: elpa-eglot). In the init file:
;;
;;     (load ".../editors/emacs/pedx.el")
;;
;; `M-x eglot' in a file of Fortran starts the server. Refusals and warnings are marked by flymake, and `eldoc' tells why
;; the rows of a reference are there. `M-x eglot-code-actions' on the line of a DO lists the steps that ped accepts.
;; `M-x pedx-verdicts' shows the verdict above each DO, and hides it again; `M-x pedx-omp' exports to OpenMP.

(require 'eglot)
(require 'jsonrpc)

(defvar pedx-command '("pedx" "serve")
  "The words that start the language server.")

(add-to-list 'eglot-server-programs
             (cons '(fortran-mode f90-mode) (lambda (&rest _) pedx-command)))

(defun pedx--uri ()
  "The address of the present file."
  (if (fboundp 'eglot-path-to-uri)
      (eglot-path-to-uri buffer-file-name)
    (eglot--path-to-uri buffer-file-name)))

(defun pedx--ask (method &rest words)
  "The server's answer to METHOD with WORDS, after it has got the present text."
  (let ((server (or (eglot-current-server) (user-error "M-x eglot starts the server first"))))
    (eglot--signal-textDocument/didChange)
    (jsonrpc-request server method words :timeout 60)))

(defun pedx--hide ()
  "Take the verdicts away, and answer whether there were any."
  (let ((shown (seq-filter (lambda (one) (overlay-get one 'pedx)) (overlays-in (point-min) (point-max)))))
    (mapc #'delete-overlay shown)
    shown))

(defun pedx-verdicts ()
  "Show the verdict above each DO, or hide it."
  (interactive)
  (unless (pedx--hide)
    (seq-doseq (lens (pedx--ask :textDocument/codeLens :textDocument (list :uri (pedx--uri))))
      (save-excursion
        (save-restriction
          (widen)
          (goto-char (point-min))
          (forward-line (plist-get (plist-get (plist-get lens :range) :start) :line))
          (let ((overlay (make-overlay (point) (point) nil t)))
            (overlay-put overlay 'pedx t)
            (overlay-put overlay 'before-string
                         (propertize (format "      %s\n" (plist-get (plist-get lens :command) :title)) 'face 'shadow))))))))

(defun pedx-omp ()
  "Write the program with OpenMP directives into a new buffer NAME.omp.f, which isn't saved yet."
  (interactive)
  (let ((name (concat (file-name-sans-extension buffer-file-name) ".omp.f")))
    (when (or (file-exists-p name) (find-buffer-visiting name))
      (user-error "%s is there already" name))
    (let ((text (pedx--ask :workspace/executeCommand :command "pedx.omp" :arguments (vector (pedx--uri)))))
      (find-file name)
      (insert text)
      (goto-char (point-min)))))

(provide 'pedx)
;;; pedx.el ends here
