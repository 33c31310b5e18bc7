" Vim and Neovim: lints the module of the current file, and lists the issues.
"
" The plugin in the folder above this one brings it. After `:compiler tfrules`, `:make`
" lints the folder of the file with all its files, as last saved, and fills the quickfix list; `:lmake`
" fills the location list. To have it for all Terraform files:
"
"     autocmd FileType terraform,hcl compiler tfrules
"
" g:tfrules_program names the program if it isn't `tfrules-all` on the path. Words after `:make` are options, as in
" `:make --rules all`.
"
" A column counts characters as a reader sees them, and Vim takes it for a byte's: after letters that aren't ASCII the
" cursor is too far to the left on the line.

if exists('current_compiler')
  finish
endif
let current_compiler = 'tfrules'

let s:keep = &cpoptions
set cpoptions&vim
if exists(':CompilerSet') != 2
  command -nargs=* CompilerSet setlocal <args>
endif
execute 'CompilerSet makeprg=' . escape(shellescape(get(g:, 'tfrules_program', 'tfrules-all')), ' \"|')
      \ . '\ --quiet\ $*\ --\ %:S'
CompilerSet errorformat=
      \tfrules-all:\ %trror:\ %f:%l:%c:\ %m,
      \tfrules-all:\ %trror:\ %f:%l:\ %m,
      \tfrules-all:\ %trror:\ %f:\ %m,
      \%f:%l:%c:\ %trror\ -\ %m,
      \%f:%l:%c:\ %tarning\ -\ %m,
      \%f:%l:%c:\ %totice\ -\ %m,
      \%+Gtfrules-all:%.%#,
      \%+Gusage:%.%#,
      \%-G%.%#
let &cpoptions = s:keep
unlet s:keep
