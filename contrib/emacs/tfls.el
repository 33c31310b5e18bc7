;;; tfls.el --- Format Terraform files by the language server tfls  -*- lexical-binding: t -*-

;; Load this file, or put its forms into the init file: `M-x eglot' then starts tfls in the modes below, and a buffer
;; is formatted whenever it is saved.  To start it by itself, add
;;
;;     (add-hook 'terraform-mode-hook #'eglot-ensure)
;;
;; A text that is refused is saved as it is; flymake shows why, and the linter's issues.  tffmt.el formats without
;; eglot: use one or the other.  Emacs 29 has eglot; for older ones it is a package.

;;; Code:

(require 'eglot)

(add-to-list 'eglot-server-programs '((terraform-mode hcl-mode) "tfls"))

(defun tfls--managed ()
  "Format a Terraform buffer on saving, as long as a server manages it."
  (when (derived-mode-p 'terraform-mode 'hcl-mode)
    (if (eglot-managed-p)
        (add-hook 'before-save-hook #'eglot-format-buffer nil t)
      (remove-hook 'before-save-hook #'eglot-format-buffer t))))

(add-hook 'eglot-managed-mode-hook #'tfls--managed)

(provide 'tfls)
;;; tfls.el ends here
