# Completion of tffmt, tfrules, tffmt-all, tfrules-all, tfls and tffmt-hook for fish.

function __tffmt_rules
    set -l rules default all terraform_comment_syntax terraform_deprecated_index terraform_deprecated_interpolation \
        terraform_documented_outputs terraform_documented_variables terraform_module_pinned_source \
        terraform_module_version terraform_naming_convention terraform_typed_variables terraform_unused_declarations
    # what stands before the last comma stays
    set -l before (string replace -r '^--rules=' '' -- (commandline -ct) | string match -r '.*,')
    printf '%s\n' "$before"$rules
end

# Words that are no option are names of files, or folders on the way to them.
function __tffmt_files
    for file in (__fish_complete_path (commandline -ct))
        string match -qr '(/|\.('$argv[1]'))$' -- (string split -f1 \t -- $file); and echo $file
    end
end

complete -c tffmt -f -l check -d 'Say by the status whether standard input is formatted'
complete -c tffmt -f -s h -l help -d 'Print the usage line'

for command in tfrules tfrules-all
    complete -c $command -f -a "(__tffmt_files 'tf|tofu')"
    complete -c $command -x -l rules -a '(__tffmt_rules)' -d 'The rules that are looked at'
    complete -c $command -x -l naming -a 'snake_case mixed_snake_case' -d 'How names are to be written'
    complete -c $command -x -l minimum-failure-severity -a 'error warning notice' -d 'Fail only where an issue is as severe'
    complete -c $command -l force -d 'Do not fail because of issues'
end
complete -c tfrules -f -s h -l help -d 'Print the usage line'

complete -c tfrules-all -l check-comments -d 'Report names in silencing comments that no rule has'
complete -c tfrules-all -l no-config -d 'Read no .tfrules'
complete -c tfrules-all -x -l format -a 'text json sarif checkstyle junit gitlab github' -d 'How to write what is found'
complete -c tfrules-all -l quiet -d 'Say nothing of the run as a whole'
complete -c tfrules-all -x -l shard -d 'Take a part of the modules, K/N'
complete -c tfrules-all -x -s j -l jobs -d 'Taken, and of no use'
complete -c tfrules-all -f -l list-rules -d 'Print what the rules report'
complete -c tfrules-all -x -l explain -a '(__tffmt_rules | string match "terraform_*")' -d 'Print what a rule reports, and why'
complete -c tfrules-all -f -s 0 -l null -d 'Read names from standard input'
complete -c tfrules-all -f -s h -l help -d 'Print help'
complete -c tfrules-all -f -l version -d 'Print the version'

complete -c tffmt-all -f -a "(__tffmt_files 'tf|tfvars|tofu|tftest\.hcl|tfmock\.hcl|tfquery\.hcl|tofutest\.hcl')"
complete -c tffmt-all -l check -d 'Report each file that is not formatted'
complete -c tffmt-all -l diff -d 'Show what would change'
complete -c tffmt-all -l list -d 'Print the names of files that would change'
complete -c tffmt-all -l in-place -d 'Write over a file that cannot be replaced'
complete -c tffmt-all -l sync -d 'Have each new file on the disk'
complete -c tffmt-all -l quiet -d 'Count no files at the end'
complete -c tffmt-all -r -F -l exclude -d 'Pass over this name or path'
complete -c tffmt-all -l any-name -d 'Take a named file whatever it is called'
complete -c tffmt-all -x -s j -l jobs -d 'Taken, and of no use'
complete -c tffmt-all -x -l shard -d 'Take a part of the files, K/N'
complete -c tffmt-all -f -s 0 -l null -d 'Read names from standard input'
complete -c tffmt-all -f -s h -l help -d 'Print help'
complete -c tffmt-all -f -l version -d 'Print the version'

complete -c tfls -f -s h -l help -d 'Print the usage line'
complete -c tfls -f -l stdio -d 'Change nothing'

complete -c tffmt-hook -f -l install -d 'Make this the hook of the repository here'
complete -c tffmt-hook -f -l uninstall -d 'Remove it'
complete -c tffmt-hook -f -s h -l help -d 'Print help'
complete -c tffmt-hook -f -l version -d 'Print the version'
