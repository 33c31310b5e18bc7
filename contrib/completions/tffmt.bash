# Completion of tffmt, tfrules, tffmt-all, tfrules-all, tfls and tffmt-hook for bash. `make install` puts it where
# bash-completion finds it; without that, source it in ~/.bashrc.

_tffmt() {
  local word=${COMP_WORDS[COMP_CWORD]} before=${COMP_WORDS[COMP_CWORD - 1]} options='' values='' files='' first='' i found
  local rules='terraform_comment_syntax terraform_deprecated_index terraform_deprecated_interpolation
    terraform_documented_outputs terraform_documented_variables terraform_module_pinned_source terraform_module_version
    terraform_naming_convention terraform_typed_variables terraform_unused_declarations'
  COMPREPLY=()
  # `--rules=x` is three words where `=` parts words, and one where it doesn't.
  if [[ $word == = ]]; then
    word=
  elif [[ $before == = ]]; then
    before=${COMP_WORDS[COMP_CWORD - 2]}
  elif [[ $word == --*=* ]]; then
    before=${word%%=*} first=$before= word=${word#*=}
  fi
  case ${1##*/} in
    tffmt) options='--check --help' ;;
    tfrules) options='--rules --naming --minimum-failure-severity --force --help' files=linted ;;
    tffmt-all) options='--check --diff --list --in-place --sync --quiet --exclude --any-name --jobs --shard --null --help --version' files=formatted ;;
    tfrules-all)
      options='--rules --naming --minimum-failure-severity --force --check-comments --no-config --format --quiet --shard --jobs --null --list-rules --explain --help --version'
      files=linted ;;
    tfls) options='--help --stdio' ;;
    tffmt-hook) options='--install --uninstall --help --version' ;;
  esac
  for ((i = 1; i < COMP_CWORD; i++)); do
    [[ ${COMP_WORDS[i]} != -- ]] || options=
  done
  case ${1##*/}:$before in
    tfrules-all:--format) values='text json sarif checkstyle junit gitlab github' ;;
    tfrules*:--rules)
      values="default all $rules"
      [[ $word != *,* ]] || first=$first${word%,*}, word=${word##*,} ;;
    tfrules-all:--explain) values=$rules ;;
    tfrules*:--naming) values='snake_case mixed_snake_case' ;;
    tfrules*:--minimum-failure-severity) values='error warning notice' ;;
    *:-j | *:--jobs | *:--shard) return ;;
    tffmt-all:--exclude) options='' files=any ;;
  esac
  if [[ -n $values ]]; then
    while IFS= read -r found; do
      COMPREPLY+=("$first$found")
    done < <(compgen -W "$values" -- "$word")
  elif [[ $word == -* && -n $options ]]; then
    while IFS= read -r found; do
      COMPREPLY+=("$found")
    done < <(compgen -W "$options" -- "$word")
  elif [[ -n $files ]]; then
    compopt -o filenames 2>/dev/null
    while IFS= read -r found; do
      case $files:$found in
        *:*.tf | *:*.tofu) COMPREPLY+=("$found") ;;
        formatted:*.tfvars | formatted:*.tftest.hcl | formatted:*.tfmock.hcl) COMPREPLY+=("$found") ;;
        any:*) COMPREPLY+=("$found") ;;
        formatted:*.tfquery.hcl | formatted:*.tofutest.hcl) COMPREPLY+=("$found") ;;
        *) [[ ! -d $found ]] || COMPREPLY+=("$found") ;;
      esac
    done < <(compgen -f -- "$word")
  fi
}

complete -F _tffmt tffmt tfrules tffmt-all tfrules-all tfls tffmt-hook
