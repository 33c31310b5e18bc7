# Kakoune: formats a Terraform file when it is written.
#
# Put this file into ~/.config/kak/autoload/, beside a link to Kakoune's own scripts if you have none there yet. `:tffmt`
# formats the buffer by hand. If tffmt refuses the text, or can't be run, the buffer stays as it is, the file is written as
# it is, and the message is shown.

declare-option -hidden str tffmt_folder

define-command -docstring 'tffmt: format the buffer with tffmt' tffmt %{
    evaluate-commands %sh{
        folder=$(mktemp -d "${TMPDIR:-/tmp}/kak-tffmt.XXXXXX") || exit
        printf "set-option buffer tffmt_folder '%s'\n" "$folder"
    }
    evaluate-commands -draft -no-hooks -save-regs '"' %{
        write "%opt{tffmt_folder}/before"
        # The text goes into a register, quoted, or the message becomes a failure.
        evaluate-commands %sh{
            cd "$kak_opt_tffmt_folder" || exit
            if tffmt <before >after 2>said; then
                text=$(sed "s/'/''/g" after && echo x)
                printf "set-register dquote '%s'\n" "${text%x}"
                cmp -s before after || echo "execute-keys '%R'"
            else
                printf "fail '%s'\n" "$(sed "s/'/''/g" said)"
            fi
            rm -rf "$kak_opt_tffmt_folder"
        }
    }
}

hook global BufCreate .*\.(tf|tfvars|tofu|tftest\.hcl|tfmock\.hcl|tfquery\.hcl|tofutest\.hcl) %{
    hook buffer BufWritePre .* tffmt
}
