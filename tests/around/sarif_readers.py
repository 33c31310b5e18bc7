"""SARIF as others read it: the types of a Go library, and those of a Python library, each made from the schema by a
generator. Both are packages of Debian, golang-github-haya14busa-go-sarif-dev and python3-sarif-python-om."""

import json
import os
import pathlib
import subprocess

AROUND = pathlib.Path(__file__).resolve().parent
LIBRARY = '/usr/share/gocode'
PYTHON = '/usr/bin/python3'


def by_go(group):
    """The words of a program that reads by Go's types, or why there is none."""
    if not os.path.isdir(LIBRARY + '/src/github.com/haya14busa/go-sarif'):
        return None, 'golang-github-haya14busa-go-sarif-dev is not installed'
    here = group.fresh()
    setting = {
        'GO111MODULE': 'off',
        'GOPATH': LIBRARY,
        'GOFLAGS': '',
        'GOENV': 'off',
        'GOPROXY': 'off',
        'GOCACHE': str(here / 'cache'),
        'GOTMPDIR': str(here),
    }
    status, _, err = group.call(
        'go', 'build', '-o', here / 'read', AROUND / 'sarif_types.go', cwd=here, within=600, **setting
    )
    group.check('go builds a reader', (status, err), (0, b''))
    return [here / 'read'], None


def by_objects(group):
    done = subprocess.run([PYTHON, '-c', 'import attr, sarif_om'], stdin=subprocess.DEVNULL, stderr=subprocess.PIPE)
    if done.returncode:
        return None, 'not installed'
    return [PYTHON, AROUND / 'sarif_objects.py'], None


def full(value):
    """A value without the members that are empty lists, which Go leaves out."""
    if isinstance(value, list):
        return [full(it) for it in value]
    if isinstance(value, dict):
        return {name: full(it) for name, it in value.items() if it != []}
    return value


def differs(given, wanted, path=''):
    """Where two values of JSON first differ, or nothing."""
    if isinstance(given, dict) and isinstance(wanted, dict):
        if set(given) != set(wanted):
            return '%s is read with %r, and stands there with %r' % (path, sorted(given), sorted(wanted))
        pairs = [(name, given[name], wanted[name]) for name in wanted]
    elif isinstance(given, list) and isinstance(wanted, list) and len(given) == len(wanted):
        pairs = [('%d' % at, one, other) for at, (one, other) in enumerate(zip(given, wanted))]
    else:
        return '' if given == wanted else '%s is read as %.300r, and stands there as %.300r' % (path, given, wanted)
    return next(filter(None, (differs(one, other, '%s/%s' % (path, name)) for name, one, other in pairs)), '')


def check(group, documents):
    """Both readers read each document, by its name, and find everything in it."""
    for needs, name, found in (('go', 'go-sarif', by_go), (PYTHON, 'sarif_om', by_objects)):
        if not group.has(needs, checks=len(documents)):
            continue
        words, why = found(group)
        if why:
            group.skip(name, len(documents), why)
            continue
        given = b''.join(out.rstrip(b'\n') + b'\n' for out in documents.values())
        status, out, err = group.call(*words, cwd=group.top, stdin=given, within=300)
        told = out.splitlines()
        if (status, err, len(told)) != (0, b'', len(documents)):
            told = [json.dumps('%s ended with %d: %r' % (name, status, err[-300:])).encode()] * len(documents)
        for (of, document), line in zip(documents.items(), told):
            group.check('%s reads %s' % (name, of), differs(full(json.loads(line)), full(json.loads(document))), '')
