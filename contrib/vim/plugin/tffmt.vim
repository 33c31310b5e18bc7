" Vim and Neovim: formats a Terraform file when it is written.
"
" The folder above this one is a plugin: copy it to ~/.vim/pack/tffmt/start/tffmt (Vim) or
" ~/.local/share/nvim/site/pack/tffmt/start/tffmt (Neovim), or name it to a plugin manager. `:Tffmt` formats the buffer
" by hand.
" If tffmt refuses the text, the buffer stays as it is, the file is written as it is, and the message is shown
" after Vim's own that the file was written. The same holds if tffmt can't be run.
"
" g:tffmt_program names the program if it isn't `tffmt` on the path; with `let g:tffmt_on_save = 0` nothing is
" formatted on writing.
"
" 'formatprg' and 'equalprg' are not the place for tffmt: they pass it a part of a file, and Vim replaces the text
" by the message of a failed filter.

" Formats the buffer; what went wrong, or nothing.
function! s:Format() abort
  let l:program = get(g:, 'tffmt_program', 'tffmt')
  if !executable(l:program)
    return l:program . ': not found'
  endif
  let l:before = getline(1, '$')
  let l:after = systemlist(shellescape(l:program), l:before + [''])
  if v:shell_error || len(l:after) != len(l:before)
    return empty(l:after) ? l:program . ' failed' : join(l:after, ' ')
  endif
  if l:after !=# l:before
    let l:view = winsaveview()
    call setline(1, l:after)
    call winrestview(l:view)
  endif
  return ''
endfunction

function! s:Show(message) abort
  if !empty(a:message)
    redraw
    echohl WarningMsg
    echomsg a:message
    echohl None
  endif
endfunction

" A message before the write would be covered by the one that the file was written.
function! s:BeforeWrite() abort
  let b:tffmt_message = get(g:, 'tffmt_on_save', 1) ? s:Format() : ''
endfunction

function! s:AfterWrite() abort
  call s:Show(get(b:, 'tffmt_message', ''))
  let b:tffmt_message = ''
endfunction

command! Tffmt call s:Show(s:Format())

augroup tffmt
  autocmd!
  autocmd BufWritePre *.tf,*.tfvars,*.tofu,*.tftest.hcl,*.tfmock.hcl,*.tfquery.hcl,*.tofutest.hcl call s:BeforeWrite()
  autocmd BufWritePost *.tf,*.tfvars,*.tofu,*.tftest.hcl,*.tfmock.hcl,*.tfquery.hcl,*.tofutest.hcl call s:AfterWrite()
augroup END
