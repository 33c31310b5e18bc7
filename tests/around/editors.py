"""contrib/editors in the real editors, on a terminal of our own."""

import fcntl
import json
import os
import pty
import re
import select
import shutil
import struct
import subprocess
import termios
import time

from harness import BAD, GOOD, OTHER, TOP, put


def on_terminal(group, words, cwd, seconds=20, keys=(), **setting):
    """Runs a command on a terminal until it ends, and returns its output there. `keys` are pairs: once the output since
    the last keys has the first, the second are typed."""
    master, slave = pty.openpty()
    fcntl.ioctl(slave, termios.TIOCSWINSZ, struct.pack('HHHH', 30, 100, 0, 0))

    def own_terminal():
        os.setsid()
        fcntl.ioctl(0, termios.TIOCSCTTY, 0)

    process = subprocess.Popen(
        [str(w) for w in words],
        cwd=str(cwd),
        stdin=slave,
        stdout=slave,
        stderr=slave,
        preexec_fn=own_terminal,
        env=dict(group.setting, TERM='xterm', **setting),
    )
    os.close(slave)
    said, end, keys, seen = b'', time.monotonic() + seconds, list(keys), 0
    while process.poll() is None and time.monotonic() < end:
        if select.select([master], [], [], 0.05)[0]:
            try:
                said += os.read(master, 65536)
            except OSError:
                break
        elif keys and re.search(keys[0][0], said[seen:], re.S):
            seen = len(said)
            os.write(master, keys.pop(0)[1])
    if process.poll() is None and time.monotonic() >= end:
        process.kill()
        said += b' (did not end)'
    process.wait()
    while select.select([master], [], [], 0)[0]:
        try:
            said += os.read(master, 65536)
        except OSError:
            break
    os.close(master)
    return said


# Vim script for both: writes the buffer as a user would, and then notes what stands on the last line.
VIM = '''
set nomore cmdheight=1 columns=100 lines=30 noswapfile
source PLUGIN
function! Note(timer) abort
  redraw
  let l:shown = ''
  for l:column in range(1, &columns)
    let l:shown .= screenstring(&lines, l:column)
  endfor
  call writefile([substitute(l:shown, ' *$', '', '')], 'shown')
  call writefile(getline(1, '$'), 'buffer')
  qall!
endfunction
function! Type(timer) abort
  call feedkeys("KEYS\\<CR>", 't')
  call timer_start(400, function('Note'))
endfunction
call timer_start(200, function('Type'))
'''


def run_vim(group):
    editor = group.name
    if not group.has(editor, checks=9):
        return

    def edit(name, text, keys=':w', program=group.program, path=None, **setting):
        """The last line, the text of the buffer, and the text of the file."""
        here = group.fresh()
        put(here, {name: text})
        script = VIM.replace('PLUGIN', str(group.contrib / 'vim/plugin/tffmt.vim')).replace('KEYS', keys)
        (here / 'test.vim').write_text('let g:tffmt_program = "%s"\n%s' % (program, script))
        words = [editor, '-u', 'NONE', '-N', '-i', 'NONE'] if editor == 'vim' else [editor, '-u', 'NONE', '-i', 'NONE']
        said = on_terminal(group, words + ['-S', 'test.vim', name], here, **setting)
        if not (here / 'shown').exists():
            return 'nothing was noted: %r' % said[-300:], b'', b''
        return (here / 'shown').read_text().strip(), (here / 'buffer').read_bytes(), (here / name).read_bytes()

    shown, buffer, file = edit('a.tf', OTHER)
    group.check('a file is formatted when it is written', (buffer, file), (GOOD, GOOD))
    group.holds('and Vim says that it was written', 'written' in shown, shown)
    for name in ('a.tfvars', 'a.tofu', 'a.tftest.hcl', 'a.tfmock.hcl', 'a.tfquery.hcl', 'a.tofutest.hcl'):
        group.check(name, edit(name, OTHER)[2], GOOD)
    group.check(
        'a refused buffer: the message is seen in the end',
        edit('a.tf', BAD),
        ('tffmt: error: 1:3: unexpected token', BAD, BAD),
    )
    group.check(
        'without the program, on writing',
        edit('a.tf', OTHER, program='no-such-program'),
        ('no-such-program: not found', OTHER, OTHER),
    )
    group.check(
        'without the program, by hand',
        edit('a.tf', OTHER, ':Tffmt', program='no-such-program'),
        ('no-such-program: not found', OTHER, OTHER),
    )
    group.check('by hand, refused', edit('a.tf', BAD, ':Tffmt'), ('tffmt: error: 1:3: unexpected token', BAD, BAD))
    group.check('by hand', edit('a.tf', OTHER, ':Tffmt')[1:], (GOOD, OTHER))
    group.check('turned off', edit('a.tf', OTHER, ':let g:tffmt_on_save = 0|w')[2], OTHER)
    group.check('another file', edit('a.txt', OTHER)[2], OTHER)
    shell = os.path.join(str(group.fresh()), 'a b')
    os.symlink(group.program, shell)
    group.check('a program with a blank in its path', edit('a.tf', OTHER, program=shell)[2], GOOD)


PACKAGED = """set nomore
edit a.tf
silent write
call writefile([exists(':Tffmt'), join(getline(1, '$'), '|')], 'told')
compiler tfrules
call writefile([b:current_compiler], 'compiler')
qall!
"""


def run_packaged_vim(group):
    """The folder as a package, where Vim and Neovim look for those that start with them."""
    editor = group.name.split()[0]
    if not group.has(editor, checks=1):
        return
    home = group.fresh()
    start = {'vim': '.vim', 'nvim': '.local/share/nvim/site'}[editor] + '/pack/tffmt/start/tffmt'
    shutil.copytree(str(group.contrib / 'vim'), str(home / start))
    here = group.fresh()
    put(here, {'a.tf': OTHER, 'test.vim': PACKAGED.encode()})
    words = ['vim', '-N', '-i', 'NONE', '-es'] if editor == 'vim' else ['nvim', '-i', 'NONE', '--headless']
    path = group.before_path(group.script('tffmt', 'exec %s "$@"\n' % group.program).parent, group.contrib)
    (home / '.vimrc').touch()
    done = group.call(
        *words, '-S', 'test.vim', cwd=here, HOME=str(home), XDG_DATA_HOME=str(home / '.local/share'), PATH=path
    )
    told = [(here / name).read_text().split() if (here / name).exists() else done for name in ('told', 'compiler')]
    group.check('what the package brings', told, [['2', 'a', '=', '1'], ['tfrules']])


KAKOUNE = """source PLUGIN
edit NAME
try %{ KEYS } catch %{ echo -debug %val{error} }
write -method overwrite -force buffer
edit -debug *debug*
write -method overwrite -force shown
quit!
"""


def run_kakoune(group):
    if not group.has('kak', checks=9):
        return

    def edit(name, text, keys='write', program=group.program):
        """The output, the text of the buffer, and the text of the file."""
        here = group.fresh()
        put(here, {name: text})
        plugin = str(group.contrib / 'editors' / 'tffmt.kak')
        (here / 'test.kak').write_text(KAKOUNE.replace('PLUGIN', plugin).replace('NAME', name).replace('KEYS', keys))
        path = '%s:%s' % (group.script('tffmt', 'exec %s "$@"\n' % program).parent, group.setting['PATH'])
        done = group.call('kak', '-n', '-ui', 'dummy', '-e', 'source test.kak', cwd=here, PATH=path)
        if not (here / 'shown').exists():
            return 'nothing was noted: %r' % (done,), b'', b''
        return (here / 'shown').read_text(), (here / 'buffer').read_bytes(), (here / name).read_bytes()

    group.check('a file is formatted when it is written', edit('a.tf', OTHER)[1:], (GOOD, GOOD))
    for name in ('a.tfvars', 'a.tftest.hcl'):
        group.check(name, edit(name, OTHER)[2], GOOD)
    shown, buffer, file = edit('a.tf', BAD)
    group.holds('a refused buffer: the message is shown', 'tffmt: error: 1:3: unexpected token' in shown, shown)
    group.check('and the file is written as it is', (buffer, file), (BAD, BAD))
    shown, buffer, file = edit('a.tf', OTHER, program='no-such-program')
    group.holds('without the program', 'no-such-program: not found' in shown and file == OTHER, (shown, file))
    group.check('by hand', edit('a.tf', OTHER, 'tffmt')[1:], (GOOD, OTHER))
    group.check('another file', edit('a.txt', OTHER)[2], OTHER)
    left = [it.name for it in group.folder('tmp').glob('kak-tffmt*')]
    group.check('no temporary file is left', left, [])


EMACS = '''
(load "PLUGIN" nil t)
(setq tffmt-program "PROGRAM" make-backup-files nil)
(find-file "NAME")
(run-with-timer 0.3 nil (lambda ()
  FORM
  (run-with-timer 0.5 nil (lambda ()
    (write-region (or (current-message) "") nil "shown" nil 'quiet)
    (write-region (buffer-string) nil "buffer" nil 'quiet)
    (kill-emacs)))))
'''


def run_emacs(group):
    if not group.has('emacs', checks=12):
        return

    def edit(name, text, form, program=group.program, before=''):
        here = group.fresh()
        put(here, {name: text})
        (here / 'test.el').write_text(
            EMACS.replace('PLUGIN', str(group.contrib / 'emacs/tffmt.el'))
            .replace('PROGRAM', program)
            .replace('NAME', name)
            .replace('FORM', form)
        )
        said = on_terminal(group, ['emacs', '-Q', '-nw', '-l', 'test.el'], here)
        if not (here / 'shown').exists():
            return 'nothing was noted: %r' % said[-300:], b'', b''
        return (here / 'shown').read_text(), (here / 'buffer').read_bytes(), (here / name).read_bytes()

    saving = '(tffmt-on-save-mode 1) (set-buffer-modified-p t) (save-buffer)'
    shown, buffer, file = edit('a.tf', OTHER, saving)
    group.check('a buffer is formatted when it is saved', (buffer, file), (GOOD, GOOD))
    group.holds('and Emacs says that it was written', shown.startswith('Wrote'), shown)
    group.check(
        'a refused buffer: the message is seen in the end',
        edit('a.tf', BAD, saving),
        ('tffmt: error: 1:3: unexpected token', BAD, BAD),
    )
    shown, buffer, file = edit('a.tf', OTHER, saving, program='no-such-program')
    group.holds('without the program, on saving', 'no-such-program' in shown, shown)
    group.check('the file is saved then', (buffer, file), (OTHER, OTHER))
    shown, buffer, file = edit('a.tf', OTHER, '(tffmt)', program='no-such-program')
    group.holds('without the program, by hand', 'no-such-program' in shown, shown)
    group.check('by hand', edit('a.tf', OTHER, '(tffmt)')[1:], (GOOD, OTHER))
    batch(group)


BATCH = '''
(defvar terraform-mode-hook nil)
(load "PLUGIN" nil t)
(setq tffmt-program "PROGRAM")
(princ (format "loading turns on: %S\\n" terraform-mode-hook))
(find-file "big.tf")
(let ((before (buffer-string)))
  (tffmt)
  (undo-boundary)
  (let ((last-command nil) (inhibit-message t)) (undo))
  (princ (format "undo restores: %S\\n" (equal before (buffer-string)))))
(search-forward "a777=")
(let ((began (float-time (get-internal-run-time))) (word (copy-marker 5)))
  (tffmt)
  (princ (format "in time: %S\\n" (< (- (float-time (get-internal-run-time)) began) 5)))
  (princ (format "point stands after: %S\\n" (buffer-substring (line-beginning-position) (point))))
  (princ (format "a marker stands after: %S\\n" (buffer-substring 1 word))))
(set-buffer-modified-p t)
(save-buffer)
'''


def batch(group):
    here = group.fresh()
    text = b''.join(b'a%d=%d # x  y\n' % (i, i) for i in range(20000))
    put(
        here,
        {
            'big.tf': text,
            'test.el': BATCH.replace('PLUGIN', str(group.contrib / 'emacs/tffmt.el'))
            .replace('PROGRAM', group.program)
            .encode(),
        },
    )
    status, out, err = group.call('emacs', '-Q', '--batch', '-l', 'test.el', cwd=here)
    group.check(
        '20,000 changed lines',
        out.decode().splitlines(),
        [
            'loading turns on: nil',
            'undo restores: t',
            'in time: t',
            'point stands after: "a777   ="',
            'a marker stands after: "a0     = 0"',
        ],
    )
    group.check('with no other message', err.decode().splitlines()[1:], [])
    group.check(
        'are what tffmt prints', (here / 'big.tf').read_bytes(), group.call(group.program, cwd=here, stdin=text)[1]
    )
    put(
        here,
        {
            'mixed.tf': b'b{\n\tx   =[1,  2]\t\n\n  long=<<E\n  k  \nE\n}\r\n\xc3\xa9 = 1',
            'other.el': (
                '(load "%s/emacs/tffmt.el" nil t) (setq tffmt-program "%s") (find-file-literally "mixed.tf") '
                '(set-buffer-multibyte t) (tffmt) (save-buffer)' % (group.contrib, group.program)
            ).encode(),
        },
    )
    wanted = group.call(group.program, cwd=here, stdin=(here / 'mixed.tf').read_bytes())[1]
    group.call('emacs', '-Q', '--batch', '-l', 'other.el', cwd=here)
    group.check('a text of all kinds', (here / 'mixed.tf').read_bytes(), wanted)
    warnings = group.call(
        'emacs',
        '-Q',
        '--batch',
        '--eval',
        '(setq byte-compile-dest-file-function (lambda (_) "%s"))' % (here / 'x.elc'),
        '-f',
        'batch-byte-compile',
        group.contrib / 'emacs' / 'tffmt.el',
        cwd=here,
    )
    group.check('compiles without a warning', (warnings[0], warnings[2]), (0, b''))


# --- what tfrules finds, in Vim and in Neovim --------------------------------------------------------------------

# A module with a find of each severity that there is, in a folder with a blank in its name.
MODULE = {
    'a b/m.tf': b'variable "one" { type = string }\nvariable "Two" { type = string }\nx = var.Two\n',
    'a b/o.tf': b'output "o" {\n  value = var.Two\n}\n\nvariable "t" {}\ny = var.t\n',
}
OTHERS = {'a b/m.tf': b'x =\n', 'a b/o.tf': b''}
RULES = '--rules terraform_unused_declarations,terraform_naming_convention,terraform_typed_variables'
FOUND = [
    ('a b/m.tf', 1, 1, 'W', 'variable "one" is declared but not used', 'terraform_unused_declarations'),
    ('a b/m.tf', 2, 1, 'N', 'variable name "Two" must match snake_case', 'terraform_naming_convention'),
    ('a b/o.tf', 5, 1, 'W', 'variable "t" has no type', 'terraform_typed_variables'),
]


def run_linting_vim(group):
    """The quickfix list, in Vim and in Neovim."""
    editor = group.name.split()[0]
    if not group.has(editor, checks=7):
        return
    script = """let &runtimepath = '%s,' . &runtimepath
%s
compiler tfrules
silent make! %s
let Shown = {_, it -> [it.bufnr ? bufname(it.bufnr) : '', it.lnum, it.col, it.type, it.text]}
call writefile([json_encode(map(getqflist(), Shown))], 'list')
qall!
"""

    def made(files, words='', setting=''):
        here = group.fresh()
        put(here, files)
        (here / 'test.vim').write_text(script % (group.contrib / 'vim', setting, words))
        words = (
            ['vim', '-u', 'NONE', '-N', '-i', 'NONE', '-es']
            if editor == 'vim'
            else ['nvim', '-u', 'NONE', '-i', 'NONE', '--headless']
        )
        done = group.call(*words, 'a b/m.tf', '-S', 'test.vim', cwd=here, PATH=group.before_path())
        return json.loads((here / 'list').read_text()) if (here / 'list').exists() else done

    group.check(
        'the list has the report of the module',
        made(MODULE, RULES),
        [[file, line, column, kind, '%s (%s)' % (text, rule)] for file, line, column, kind, text, rule in FOUND],
    )
    group.check('and a refusal', made(OTHERS), [['a b/m.tf', 1, 4, 'e', 'unexpected token']])
    group.check('no issue, an empty list', made({'a b/m.tf': b'x = 1\n'}), [])
    spaced = group.fresh() / 'a b'
    spaced.write_text('#!/bin/sh\necho "a b/m.tf:7:8: Error - $* (x)"\n')
    spaced.chmod(0o755)
    group.check(
        'a program with a blank in its path, and its words',
        made(OTHERS, '--rules all', "let g:tfrules_program = '%s'" % spaced),
        [['a b/m.tf', 7, 8, 'E', '--quiet --rules all -- a b/m.tf (x)']],
    )
    group.check(
        'what is said of a whole module is shown',
        [it[4] for it in made(dict({'a b/%03d.tf' % i: b'' for i in range(257)}, **MODULE))],
        ['more than 256 files'],
    )
    group.check(
        'and what is said of its options',
        made(dict(OTHERS, **{'a b/.tfrules': b'--force\n--bogus\n'})),
        [['a b/.tfrules', 2, 0, 'e', 'no option of a project: "--bogus"']],
    )
    group.check(
        'and of a wrong command line',
        [it[4] for it in made(OTHERS, '--rules bogus')],
        ['tfrules-all: error: unknown rule "bogus"'],
    )


# --- the language server, in the editors -------------------------------------------------------------------------

# A text with characters of two units of UTF-16 and several runs of lines.
SERVED = 'a=1 # \U0001F600\n\nb   {\n  c = 2\n  # x\n d=  "\U0001F600é"\n}\n'.encode()
# A text that uses a variable.
OUTPUT = b'output "o" {\n  value = var.y\n}\n'
SERVED_LUA = """
vim.g.tfls_program = "PROGRAM"
vim.cmd("source PLUGIN")
vim.cmd("edit NAME")
vim.fn.append(0, "TYPED")
vim.cmd("silent write")
vim.fn.writefile(vim.fn.readfile("NAME", "b"), "first", "b")
vim.fn.append(1, "TYPED")
vim.cmd("silent write")
vim.fn.writefile(vim.fn.getline(1, "$"), "buffer")
local clients = vim.lsp.get_active_clients()
vim.wait(WAIT, function() return #vim.diagnostic.get(0) >= COUNT end, 20)
local shown = vim.tbl_map(function(it)
  return table.concat({ it.lnum, it.col, it.end_lnum, it.end_col, it.severity, it.source, it.message }, " ")
end, vim.diagnostic.get(0))
vim.fn.writefile(shown, "diagnostics")
vim.lsp.stop_client(clients)
vim.wait(20000, function() return #vim.lsp.get_active_clients() == 0 end, 20)
vim.fn.writefile({ tostring(#clients) }, "clients")
vim.cmd("qall!")
"""
# A module whose variable is used in three files, and the same with another name.
NAMED = {
    'a.tf': 'variable "x" {\n  type = string\n}\n\nlocals {\n  y = [var.x, "😀 ${var.x}"]\n}\n'.encode(),
    'b.tf': 'output "o" {\n  value = "😀é${local.y}${var.x}"\n}\n'.encode(),
    'c.tf': b'output "p" {\n  value = var.x\n}\n',
}
RENAMED = {
    'a.tf': 'variable "zone" {\n  type = string\n}\n\nlocals {\n  y = [var.zone, "😀 ${var.zone}"]\n}\n'.encode(),
    'b.tf': 'output "o" {\n  value = "😀é${local.y}${var.zone}"\n}\n'.encode(),
    'c.tf': b'output "p" {\n  value = var.zone\n}\n',
}
# The files and lines at which the variable is, from 1, the declaration first.
PLACES = ['a.tf 1', 'a.tf 6', 'a.tf 6', 'b.tf 2', 'c.tf 2']
RENAMING_LUA = """
vim.g.tfls_program = "PROGRAM"
vim.cmd("source PLUGIN")
vim.cmd("set hidden")
vim.cmd("edit a.tf")
vim.cmd("edit b.tf")
vim.wait(20000, function()
  local client = vim.lsp.get_active_clients()[1]
  return client and client.initialized
end, 5)
local client = vim.lsp.get_active_clients()[1]
local function ask(method, more)
  vim.fn.search("var[.]")
  local params = vim.tbl_extend("error", vim.lsp.util.make_position_params(0, client.offset_encoding), more)
  return vim.lsp.buf_request_sync(0, "textDocument/" .. method, params, 20000)[client.id].result
end
local function rename(name)
  vim.lsp.util.apply_workspace_edit(ask("rename", { newName = name }), client.offset_encoding)
  vim.cmd("silent wall")
end
local said = {}
for _, it in ipairs({ ask("definition", {}), ask("references", { context = { includeDeclaration = true } }) }) do
  local places = vim.tbl_map(function(place)
    return vim.fn.fnamemodify(place.filename, ":t") .. " " .. place.lnum
  end, vim.lsp.util.locations_to_items(it, client.offset_encoding))
  table.insert(said, table.concat(places, ", "))
end
table.insert(said, ask("prepareRename", {}).placeholder)
rename("zone")
vim.fn.writefile(said, "said")
FORM
vim.lsp.stop_client(vim.lsp.get_active_clients())
vim.wait(20000, function() return #vim.lsp.get_active_clients() == 0 end, 20)
vim.cmd("qall!")
"""
# A rename by the editor's own command, which asks for the name before.
BACK_LUA = """
vim.fn.search("var[.]")
vim.lsp.buf.rename("x")
vim.wait(20000, function() return vim.fn.search("zone", "nw") == 0 end, 20)
vim.cmd("silent wall")
"""


def noting(group):
    """The language server in a script that notes its status in the current folder."""
    return group.script('tfls', '"%s" "$@"\necho $? >status\n' % group.server)


def has_server(group, checks):
    if os.access(group.server, os.X_OK):
        return True
    group.skip('tfls', checks, 'not built')
    return False


def shown_setting(language):
    """The block of a language in the section on the server of docs/USING.md."""
    page = (TOP / 'docs' / 'USING.md').read_text(encoding='utf-8')
    section = page.partition('\n## By the language server\n')[2].partition('\n## ')[0]
    return re.search('```%s\n(.*?)```' % language, section, re.S).group(1)


def run_settings(group):
    """The settings for the language server of editors that aren't run here are read, and name it."""
    sublime = json.loads(shown_setting('json'))['clients']['tfls']
    group.check('Sublime Text', (sublime['enabled'], sublime['command']), (True, ['tfls']))
    try:
        import tomllib
    except ImportError:
        group.skip('tomllib', 3, 'since Python 3.11')
        return
    helix = tomllib.loads((group.contrib / 'editors' / 'languages.toml').read_text())
    group.check('Helix: the server', helix['language-server'], {'tfls': {'command': 'tfls'}})
    served = [(it['name'], it['language-servers'], it['auto-format']) for it in helix['language']]
    group.check('Helix: the languages', served, [('hcl', ['tfls'], True), ('tfvars', ['tfls'], True)])
    kakoune = tomllib.loads(shown_setting('toml'))['language_server']
    group.check('Kakoune', [(name, it['command']) for name, it in kakoune.items()], [('tfls', 'tfls')])


def run_nvim_server(group):
    """Neovim's client, with the language server."""
    if not has_server(group, 45) or not group.has('nvim', checks=45):
        return

    def edit(name, text, typed='n=1', program=None, diagnostics=b''):
        """The text of the file that two lines were typed into, the number of servers, and the status of one."""
        here = group.fresh()
        put(here, {name: text})
        script = SERVED_LUA.replace('PROGRAM', str(program or noting(group))).replace('TYPED', typed)
        script = script.replace('PLUGIN', str(group.contrib / 'editors' / 'tfls.lua')).replace('NAME', name)
        script = script.replace('WAIT', '20000' if diagnostics else '50')
        script = script.replace('COUNT', str(max(1, diagnostics.count(b'\n'))))
        (here / 'test.lua').write_text(script)
        done = group.call('nvim', '-u', 'NONE', '-i', 'NONE', '--headless', '-c', 'luafile test.lua', cwd=here)
        if not (here / 'clients').exists():
            return done
        first, last = (here / 'first').read_bytes(), (here / name).read_bytes()
        group.check('what is shown of ' + name, (here / 'buffer').read_bytes(), last.replace(b'\r', b''))
        group.check('diagnostics of ' + name, (here / 'diagnostics').read_bytes(), diagnostics)
        status = (here / 'status').read_text().strip() if (here / 'status').exists() else ''
        return first, last, (here / 'clients').read_text().strip(), status, done[2].decode().strip()

    def printed(text):
        return group.call(group.program, cwd=group.top, stdin=text)[1]

    wanted = printed(b'n=1\n' + SERVED), printed(b'n=1\nn=1\n' + SERVED)
    group.check('a file is formatted when it is written', edit('a.tf', SERVED), (*wanted, '1', '0', ''))
    with_returns = edit('a.tf', SERVED.replace(b'\n', b'\r\n'))
    group.check('a file with CR LF', with_returns, (*(it.replace(b'\n', b'\r\n') for it in wanted), '1', '0', ''))
    for name in ('a.tfvars', 'a.tofu', 'a.tftest.hcl', 'a.tfmock.hcl', 'a.tfquery.hcl', 'a.tofutest.hcl'):
        group.check(name, edit(name, OTHER)[1:3], (printed(b'n=1\nn=1\n' + OTHER), '1'))
    refused = edit('a.tf', OTHER, 'n=', diagnostics=b'0 2 0 2 1 tfls unexpected token\n')
    group.check('a refused text', refused[1:], (b'n=\nn=\n' + OTHER, '1', '0', ''))
    marked = edit('a.tf', OTHER, '/*\U0001F600*/ n=]', diagnostics=b'0 11 0 12 1 tfls unexpected token\n')
    group.check('a refused text with a mark', marked[2:], ('1', '0', ''))
    issues = b'0 0 0 1 2 tfls variable "y" has no type\n' + b'1 0 1 1 2 tfls variable "y" has no type\n'
    linted = edit('a.tf', OUTPUT, 'variable \\"y\\" {}', diagnostics=issues)
    group.check('a text with issues', linted[2:], ('1', '0', ''))
    group.check('another file', edit('a.txt', OTHER)[1:], (b'n=1\nn=1\n' + OTHER, '0', '', ''))
    shown = edit('a.tf', OTHER, program='no-such-program')
    group.check('without the program', shown[1:], (b'n=1\nn=1\n' + OTHER, '0', '', 'no-such-program: not found'))
    check_nvim_names(group)


def check_nvim_names(group):
    """Neovim finds a name and renames it in the files of a module, one of which isn't open."""
    for name, form, files in (('a new name', '', RENAMED), ('a new name and the old one', BACK_LUA, NAMED)):
        here = group.fresh()
        put(here, NAMED)
        script = RENAMING_LUA.replace('PROGRAM', str(noting(group))).replace('FORM', form)
        (here / 'test.lua').write_text(script.replace('PLUGIN', str(group.contrib / 'editors' / 'tfls.lua')))
        done = group.call('nvim', '-u', 'NONE', '-i', 'NONE', '--headless', '-c', 'luafile test.lua', cwd=here)
        said = (here / 'said').read_text().splitlines() if (here / 'said').exists() else done
        group.check(name + ': where it is', said, [PLACES[0], ', '.join(PLACES), 'x'])
        group.check(name, {it: (here / it).read_bytes() for it in files}, files)
        status = (here / 'status').read_text().strip() if (here / 'status').exists() else ''
        group.check(name + ': the status', (status, done[2]), ('0', b''))


SERVED_EMACS = """
(require 'package)
(package-initialize)
(define-derived-mode terraform-mode prog-mode "Terraform")
(setq make-backup-files nil eglot-sync-connect 30)
LOAD
(find-file "a.tf")
(terraform-mode)
(apply #'eglot (eglot--guess-contact))
(let ((end (+ (float-time) 30)))
  (while (and (not (eglot-managed-p)) (< (float-time) end)) (accept-process-output nil 0.05)))
(goto-char (point-min))
(insert "TYPED\n")
(save-buffer)
(insert "TYPED\n")
(save-buffer)
FORM
(princ (format "%S" (and (eglot-current-server) t)))
(write-region (buffer-string) nil "buffer" nil 'quiet)
(eglot-shutdown (eglot-current-server) nil 30)
"""
# What flymake shows once it has asked.
FAULTS = """
(flymake-start)
(let ((end (+ (float-time) 30)))
  (while (and (not (flymake-diagnostics)) (< (float-time) end)) (accept-process-output nil 0.05)))
(dolist (it (flymake-diagnostics))
  (princ (format "%d %d %s " (flymake-diagnostic-beg it) (flymake-diagnostic-end it) (flymake-diagnostic-text it))))
"""
# The first write sends what was changed by edits. Then the server forgets all texts, so that it answers the request before
# the next write by an error.
FORGET = r"""
(set-buffer-modified-p t)
(save-buffer)
(process-send-string (jsonrpc--process (eglot-current-server)) "Content-Length: 0\r\n\r\n")
(set-buffer-modified-p t)
(save-buffer)
(princ (format "%S " (buffer-modified-p)))
"""


# Where a variable is, and a new name for it, in two buffers.
RENAMING_EMACS = """
(require 'package)
(package-initialize)
(define-derived-mode terraform-mode prog-mode "Terraform")
(setq make-backup-files nil eglot-sync-connect 30)
(load "CONTRIB/emacs/tfls.el" nil t)
(fset 'y-or-n-p (lambda (_) t))
(find-file "b.tf")
(terraform-mode)
(apply #'eglot (eglot--guess-contact))
(let ((end (+ (float-time) 30)))
  (while (and (not (eglot-managed-p)) (< (float-time) end)) (accept-process-output nil 0.05)))
(goto-char (point-min))
(search-forward "var.")
(defun places (found)
  (dolist (it found)
    (let ((place (xref-item-location it)))
      (princ (format "%s %d," (file-name-nondirectory (xref-location-group place)) (xref-location-line place))))))
(places (xref-backend-definitions 'eglot (xref-backend-identifier-at-point 'eglot)))
(princ "\n")
(places (xref-backend-references 'eglot (xref-backend-identifier-at-point 'eglot)))
(eglot-rename "zone")
(save-some-buffers t)
(eglot-shutdown (eglot-current-server) nil 30)
"""


def check_emacs_names(group):
    """Eglot finds a name and renames it in the files of a module, one of which is open."""
    here = group.fresh()
    put(here, NAMED)
    (here / 'test.el').write_text(RENAMING_EMACS.replace('CONTRIB', str(group.contrib)))
    path = group.before_path(noting(group).parent)
    done = group.call('emacs', '-q', '--no-site-file', '--batch', '-l', 'test.el', cwd=here, PATH=path)
    found = [line.strip(',').split(',') for line in done[1].decode().splitlines()]
    group.check('where a name is', [sorted(it) for it in found] or done, [PLACES[:1], PLACES])
    group.check('a new name', {it: (here / it).read_bytes() for it in RENAMED}, RENAMED)
    group.check('the status', done[0], 0)


def run_emacs_server(group):
    """Eglot in Emacs, with the language server."""
    if not has_server(group, 11) or not group.has('emacs', checks=11):
        return
    here = group.fresh()
    start = [
        'emacs',
        '-q',
        '--no-site-file',
        '--batch',
        '--eval',
        "(progn (require 'package) (package-initialize) (require 'eglot))",
    ]
    if group.call(*start, cwd=here)[0] != 0:
        group.skip('eglot', 11)
        return

    def edit(text, typed='n=1', form='', load='(load "%s/emacs/tfls.el" nil t)' % group.contrib):
        """The text of the file that two lines were typed into, and whether the server ran in the end."""
        here = group.fresh()
        put(here, {'a.tf': text})
        script = SERVED_EMACS.replace('LOAD', load).replace('TYPED', typed).replace('FORM', form)
        (here / 'test.el').write_text(script)
        path = group.before_path(noting(group).parent)
        done = group.call('emacs', '-q', '--no-site-file', '--batch', '-l', 'test.el', cwd=here, PATH=path)
        return (here / 'a.tf').read_bytes(), done[1].decode() if done[0] == 0 else done

    wanted = group.call(group.program, cwd=group.top, stdin=b'n=1\nn=1\n' + SERVED)[1]
    group.check('a buffer is formatted when it is saved', edit(SERVED), (wanted, 't'))
    with_returns = edit(SERVED.replace(b'\n', b'\r\n'))
    group.check('a file with CR LF', with_returns, (wanted.replace(b'\n', b'\r\n'), 't'))
    by_hand = edit(
        SERVED, form='(eglot-format-buffer) (save-buffer)', load="(require 'eglot)\n" + shown_setting('elisp')
    )
    group.check('the one entry, by hand', by_hand, (wanted, 't'))
    group.check('a refused text', edit(OTHER, 'n='), (b'n=\nn=\n' + OTHER, 't'))
    marked = edit(OTHER, '/*\U0001F600*/ n=]', form=FAULTS)
    group.check('what flymake shows', marked[1], '9 10 tfls: unexpected token t')
    linted = edit(b'variable "y" {}\n' + OUTPUT, '# x', form=FAULTS)
    issue = 'tfls [terraform_typed_variables]: variable "y" has no type'
    group.check('what flymake shows of an issue', linted[1], '9 10 %s t' % issue)
    group.check('a server that fails', edit(OTHER, form=FORGET)[1], 'nil t')
    check_emacs_names(group)
    warnings = group.call(
        *start,
        '--eval',
        '(setq byte-compile-dest-file-function (lambda (_) "%s"))' % (here / 'x.elc'),
        '-f',
        'batch-byte-compile',
        group.contrib / 'emacs' / 'tfls.el',
        cwd=here,
    )
    group.check('compiles without a warning', (warnings[0], warnings[2]), (0, b''))
