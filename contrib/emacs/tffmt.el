;;; tffmt.el --- Format Terraform files with tffmt  -*- lexical-binding: t -*-

;; Load this file, then `M-x tffmt' formats the buffer, and the minor mode `tffmt-on-save-mode' formats it whenever
;; it is saved.  Loading alone turns nothing on; to have the mode together with `terraform-mode', add
;;
;;     (add-hook 'terraform-mode-hook #'tffmt-on-save-mode)
;;
;; If tffmt refuses the text, or can't be run, the buffer stays as it is, the file is saved as it is, and the
;; message is shown after the one that the file was written.  Emacs 26.1 or later.

;;; Code:

(defgroup tffmt nil
  "Format Terraform files with tffmt."
  :group 'tools)

(defcustom tffmt-program "tffmt"
  "The program that formats, by its name on the path or its place."
  :type 'string)

(defvar-local tffmt--message nil
  "What went wrong when the buffer was formatted for being saved, or nil.")

(defun tffmt--replace (printed)
  "Make the text of the buffer that of the buffer PRINTED.
The two differ in blanks alone, so only blanks are replaced, and point and
markers stay at their words.  Where something else differs, all from there on
is replaced.  Takes time linear in the text."
  (let ((theirs (with-current-buffer printed (point-min)))
        (their-end (with-current-buffer printed (point-max)))
        (case-fold-search nil)
        (mismatch 0))
    (save-excursion
      (goto-char (point-min))
      (while (not (zerop (setq mismatch (compare-buffer-substrings nil (point) (point-max)
                                                                   printed theirs their-end))))
        (forward-char (1- (abs mismatch)))
        (setq theirs (+ theirs (1- (abs mismatch))))
        (let ((blanks (save-excursion (skip-chars-forward " \t") (point)))
              (their-blanks (with-current-buffer printed
                              (goto-char theirs)
                              (skip-chars-forward " \t")
                              (point))))
          (when (and (= blanks (point)) (= their-blanks theirs))
            (setq blanks (point-max)
                  their-blanks their-end))
          (insert (with-current-buffer printed (buffer-substring-no-properties theirs their-blanks)))
          (delete-region (point) (+ blanks (- their-blanks theirs)))
          (setq theirs their-blanks))))))

(defun tffmt--format ()
  "Format the buffer; what went wrong, or nil."
  (let ((printed (generate-new-buffer " *tffmt*"))
        (coding-system-for-read 'utf-8-unix)
        (coding-system-for-write 'utf-8-unix))
    (unwind-protect
        (save-restriction
          (widen)
          (let ((status (condition-case fault
                            (call-process-region (point-min) (point-max) tffmt-program nil printed nil)
                          (file-error (error-message-string fault)))))
            (cond
             ((stringp status) status)
             ((not (eql 0 status))
              (with-current-buffer printed
                (if (zerop (buffer-size))
                    (format "%s failed: %s" tffmt-program status)
                  (replace-regexp-in-string "\n+\\'" "" (buffer-string)))))
             (t (combine-after-change-calls (tffmt--replace printed))
                nil))))
      (kill-buffer printed))))

;;;###autoload
(defun tffmt ()
  "Format the buffer with tffmt."
  (interactive)
  (let ((fault (tffmt--format)))
    (when fault (message "%s" fault))))

(defun tffmt--before-save ()
  "Format the buffer, and keep what went wrong for `tffmt--after-save'."
  (setq tffmt--message (tffmt--format)))

(defun tffmt--after-save ()
  "Show what went wrong before the file was written."
  (when tffmt--message
    (message "%s" tffmt--message)
    (setq tffmt--message nil)))

;;;###autoload
(define-minor-mode tffmt-on-save-mode
  "Format the buffer with tffmt whenever it is saved."
  :lighter " tffmt"
  (if tffmt-on-save-mode
      (progn
        (add-hook 'before-save-hook #'tffmt--before-save nil t)
        (add-hook 'after-save-hook #'tffmt--after-save nil t))
    (remove-hook 'before-save-hook #'tffmt--before-save t)
    (remove-hook 'after-save-hook #'tffmt--after-save t)))

(provide 'tffmt)
;;; tffmt.el ends here
