"""The program itself, where tests/cases can't go: devices that fail, and the examples of the documents."""

import json
import os
import re
import subprocess

from harness import TOP


def run(group):
    work = group.fresh()

    def call(words, stdin, stdout=subprocess.PIPE):
        done = subprocess.run(
            [group.program] + words, stdin=stdin, stdout=stdout, stderr=subprocess.PIPE, cwd=str(work)
        )
        return done.returncode, done.stderr

    (work / 'a.tf').write_bytes(b'a=1\n')
    with open('/dev/full', 'wb') as full:
        for words in ([], ['--help']):
            with open(str(work / 'a.tf'), 'rb') as stdin:
                group.check('a full device %r' % words, call(words, stdin, full), (4, b'tffmt: error: write failed\n'))
    folder = os.open(str(work), os.O_RDONLY)
    for words in ([], ['--check']):
        group.check('a read that fails %r' % words, call(words, folder), (4, b'tffmt: error: read failed\n'))
    os.close(folder)
    readme(group)
    walk(group)


def walk(group):
    """The first walk of docs/USING.md. A line with `refused: TEXT` or `status 2: TEXT` must fail and say so."""
    if not group.has('git', checks=6):
        return
    text = (TOP / 'docs/USING.md').read_text(encoding='utf-8')
    section = text.split('## A first walk\n')[1].split('\n## ')[0]
    lines = ''.join(re.findall(r'```sh\n(.*?)```', section, re.S)).splitlines()
    script = 'git config --global user.name n && git config --global user.email n@localhost\n'
    script += ''.join(
        '%s || echo "failed: %d"\n' % (line.partition('#')[0].rstrip(), i) for i, line in enumerate(lines)
    )
    path = group.before_path(
        group.contrib,
        group.script('tffmt', 'exec %s "$@"\n' % group.program).parent,
    )
    for name in ('TFFMT', 'TFFMT_ALL'):
        del group.setting[name]
    here = group.fresh()
    status, out, err = group.call('sh', '-c', script, cwd=here, PATH=path)
    refused = [i for i, line in enumerate(lines) if re.search('# (refused|status 2)', line)]
    group.check(
        'what fails in the first walk',
        (re.findall('failed: ([0-9]+)', out.decode()), len(refused)),
        ([str(i) for i in refused], 3),
    )
    for line in refused[:2]:
        wanted = re.search('# (?:refused|status 2): (.*)', lines[line]).group(1)
        group.holds('says what the walk says', wanted in (out + err).decode().splitlines(), out + err)
    printed = next(line for line in lines if 'the hook printed' in line).partition(' #')[0].rstrip()
    group.holds('the hook prints the command of the walk', '  ' + printed in err.decode().splitlines(), err)
    group.holds('and the formatted file is named', '\nmodules/web/main.tf\n' in out.decode(), out)
    made = group.call('git', 'log', '--format=%s', cwd=here / 'walk')[1]
    group.check('the commits that were made', made, b'Drop its use\nAdd a variable\nAdd a module\n')
    log = json.loads((here / 'walk' / 'tfrules.sarif').read_text())
    group.check(
        'SARIF was written', [each['ruleId'] for each in log['runs'][0]['results']], ['terraform_unused_declarations']
    )


def readme(group):
    """The example of the README, the number of its words, and a text that is explained."""
    text = (TOP / 'README.md').read_text(encoding='utf-8')
    blocks = re.findall(r'```hcl\n(.*?)```', text, re.S)
    group.check(
        'the example of the README',
        group.call(group.program, cwd=group.top, stdin=blocks[0].encode()),
        (0, blocks[1].encode(), b''),
    )
    group.check('1.2.3', group.call(group.program, cwd=group.top, stdin=b'v = 1.2.3\n'), (0, b'v = 1.2 .3\n', b''))
    group.holds('1.2.3 is explained', '1.2 .3' in (TOP / 'docs/TERRAFORM-FMT.md').read_text(encoding='utf-8'))
    group.check('the figures are drawn', group.call(TOP / 'bench' / 'plot', '--check', cwd=group.top)[0], 0)
    group.holds('the README has at most 1,200 words', len(text.split()) <= 1200, '%d words' % len(text.split()))
