#!/bin/sh
# Installs the files beside this script under a prefix, by default /usr/local, or removes them again:
#
#     sh install.sh [PREFIX]
#     sh install.sh --remove [PREFIX]
#
# The installed files are listed in PREFIX/share/doc/tffmt/installed, and the removal uses that list alone, so it removes
# the files of that version and the folders that were made for them, if they are empty. This script is there too. It
# prints in a few lines what it installed, and what to add to PATH if the programs wouldn't be found there. The status is
# 1 if a file can't be written or removed, or the programs don't run here, and then nothing is installed; and 2 if the
# command line is wrong.
set -u
LC_ALL=C
export LC_ALL

fail() {
  printf 'install.sh: %s\n' "$1" >&2
  exit "${2-1}"
}

usage() {
  fail 'usage: install.sh [--remove] [PREFIX]' 2
}

# remove PREFIX: what the list names, the files first and then the folders, each after those in it.
remove() {
  list=$1/share/doc/tffmt/installed
  [ -f "$list" ] || fail "$list: there is no such list, so nothing is removed"
  kept=$(cat -- "$list") || fail "$list: can't be read"
  printf '%s\n' "$kept" | sed -n 's/^file //p' | while IFS= read -r name; do
    rm -f -- "$1/$name" || exit 1
  done || fail 'a file could not be removed'
  printf '%s\n' "$kept" | sed -n 's/^folder //p' | sort -r | while IFS= read -r name; do
    rmdir -- "$1/$name" 2>/dev/null || :
  done
  printf '%s\n' "$kept" | grep -q '^prefix made$' && rmdir -- "$1" 2>/dev/null
  return 0
}

# names KIND: what is to be installed, by its name below the prefix.
names() {
  (cd "$here" && find bin share -type "$1") | sort
}

install_all() {
  "$here/bin/tffmt" --help >/dev/null 2>&1 ||
    fail "the programs don't run here: they are for Linux on x86-64; nothing is installed"
  if [ -f "$1/share/doc/tffmt/installed" ]; then
    remove "$1"
  fi
  made=
  if [ ! -d "$1" ]; then
    mkdir -p -- "$1" || fail "$1: can't be made"
    made='prefix made'
  fi
  folders=$(names d | while IFS= read -r name; do [ -d "$1/$name" ] || printf 'folder %s\n' "$name"; done)
  files=$(names f | sed 's/^/file /')
  printf '%s\n' "$folders" | sed -n 's/^folder //p' | while IFS= read -r name; do
    mkdir -- "$1/$name" || exit 1
  done || fail "$1: a folder can't be made there"
  # The list comes first, so that a half is removed as the whole is.
  printf '%s\n' "$made" "$folders" "$files" 'file share/doc/tffmt/installed' 'file share/doc/tffmt/install.sh' \
    >"$1/share/doc/tffmt/installed" || fail "$1/share/doc/tffmt/installed: can't be written"
  {
    names f | while IFS= read -r name; do
      cp -- "$here/$name" "$1/$name.new" && mv -f -- "$1/$name.new" "$1/$name" || exit 1
    done && cp -- "$here/install.sh" "$1/share/doc/tffmt/install.sh"
  } || {
    remove "$1"
    fail "$1: a file can't be written there; nothing is installed"
  }
}

# told PREFIX: says what was installed, and what to do so that a shell finds it.
told() {
  printf 'installed in %s/bin: %s\n' "$1" "$(cd "$here/bin" && echo *)"
  printf 'with man pages, completions, and documents in %s/share/doc/tffmt\n' "$1"
  case :$PATH: in
    *":$1/bin:"*) ;;
    *) printf 'add to PATH, in the file that your shell reads first: export PATH="%s/bin:%sPATH"\n' "$1" '$' ;;
  esac
  printf 'to remove it again: sh "%s/share/doc/tffmt/install.sh" --remove "%s"\n' "$1" "$1"
}

what=install_all
case ${1-} in
  --remove)
    what=remove
    shift
    ;;
  -*) usage ;;
esac
[ "$#" -le 1 ] || usage
prefix=${1-/usr/local}
here=$(cd "$(dirname -- "$0")" && pwd) || fail 'the folder of this script is gone'
[ "$what" = remove ] || [ -d "$here/bin" ] || fail "there is no folder bin beside this script"
"$what" "${prefix%/}"
if [ "$what" = install_all ]; then
  absolute=$(cd "${prefix%/}/" && pwd)
  told "${absolute%/}"
fi
