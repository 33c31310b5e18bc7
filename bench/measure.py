"""Shared by the scripts of this folder: running a program on a file, and measuring the run.

The program's standard input is the file, its standard output is /dev/null, and its standard error is dropped. Linux
only: the memory figure and the /dev paths are those of Linux.
"""

import os
import re
import shutil
import signal
import subprocess
import time

MIB = 1048576
MAX = 4 * MIB  # the largest file, and the largest result


def spawn(words, path):
    """Starts a program with a file as its standard input; its process."""
    return os.posix_spawn(
        words[0],
        words,
        os.environ,
        file_actions=[
            (os.POSIX_SPAWN_OPEN, 0, path, os.O_RDONLY, 0),
            (os.POSIX_SPAWN_OPEN, 1, '/dev/null', os.O_WRONLY, 0),
            (os.POSIX_SPAWN_OPEN, 2, '/dev/null', os.O_WRONLY, 0),
        ],
    )


def once(words, path, limit=None):
    """(seconds, status) of one run; status None if it took longer than `limit` seconds and was ended."""
    begin = time.perf_counter()
    child = spawn(words, path)
    late = []
    if limit:

        def end(*_):
            late.append(True)
            os.kill(child, signal.SIGKILL)

        signal.signal(signal.SIGALRM, end)
        signal.setitimer(signal.ITIMER_REAL, limit)
    _, code = os.waitpid(child, 0)
    taken = time.perf_counter() - begin
    if limit:
        signal.setitimer(signal.ITIMER_REAL, 0)
    if late:
        return taken, None
    return taken, os.WEXITSTATUS(code) if os.WIFEXITED(code) else -os.WTERMSIG(code)


def best(jobs, times, limit=None):
    """(least seconds, status) of a number of runs of each job, which is the words of a program and a file.

    The jobs take turns, so that a slow spell of the machine doesn't hit just one of them. A job that took
    longer than `limit` seconds isn't run again, and one that takes longer than a second is run three times.
    """
    found = [once(words, path, limit) for words, path in jobs]
    for turn in range(times - 1):
        for number, (words, path) in enumerate(jobs):
            least, status = found[number]
            if status is None or least > 1 and turn > 1:
                continue
            taken, again = once(words, path, limit)
            if again != status:
                raise SystemExit('%s: status %s, then %s on one input' % (words[0], status, again))
            found[number] = min(least, taken), status
    return found


def memory(words, path):
    """Peak resident memory in bytes, by GNU time, or None without it.

    (The figure that a parent gets for a child begins at the parent's own size, so a small parent is needed.)
    """
    tool = shutil.which('time')
    if tool is None:
        return None
    with open(path, 'rb') as given:
        done = subprocess.run(
            [tool, '-f', 'peak %M'] + words, stdin=given, stdout=subprocess.DEVNULL, stderr=subprocess.PIPE
        )
    found = re.findall(r'^peak (\d+)$', done.stderr.decode('utf-8', 'replace'), re.M)
    return int(found[-1]) * 1024 if found else None


def instructions(words, path):
    """Instructions in user space by callgrind, or None if it isn't there or fails. Slow.

    A Go program runs under valgrind only with one processor and without preemption by signals; the variables
    that ask for that mean nothing to other programs.
    """
    if shutil.which('valgrind') is None:
        return None
    setting = dict(os.environ, GOMAXPROCS='1', GODEBUG='asyncpreemptoff=1')
    with open(path, 'rb') as given:
        done = subprocess.run(
            ['valgrind', '--tool=callgrind', '--callgrind-out-file=/dev/null'] + words,
            stdin=given,
            stdout=subprocess.DEVNULL,
            stderr=subprocess.PIPE,
            env=setting,
        )
    found = re.findall(r'Collected\s*:\s*(\d+)', done.stderr.decode('utf-8', 'replace'))
    return int(found[-1]) if found else None


def where_taken(load):
    """A sentence with the origin of figures: the processor, the load at the start and the day."""
    model = [it.split(':', 1)[1].strip() for it in open('/proc/cpuinfo') if it.startswith('model name')]
    where = (model[0] if model else 'unknown processor', os.cpu_count(), load, time.strftime('%d %B %Y'))
    return 'Taken on %s, %d cores, begun at a load of %.1f, on %s:\n\n' % where


def into(document, mark, text):
    """Puts a text between the marks that a document has for it."""
    before, begin, rest = document.read_text(encoding='utf-8').partition('<!-- %s -->\n' % mark)
    if not begin:
        raise SystemExit('%s has no mark for %s' % (document, mark))
    _, end, after = rest.partition('<!-- end -->')
    document.write_text(before + begin + text + end + after, encoding='utf-8')


def in_ms(seconds):
    return '%.2f ms' % (seconds * 1000) if seconds < 0.1 else '%.0f ms' % (seconds * 1000)


def table(heads, rows):
    """Rows of texts as a table in Markdown, the first column to the left and the others to the right."""
    widths = [max(len(r[i]) for r in [heads] + rows) for i in range(len(heads))]

    def line(cells):
        return (
            '| '
            + ' | '.join(c.ljust(w) if i == 0 else c.rjust(w) for i, (c, w) in enumerate(zip(cells, widths)))
            + ' |'
        )

    rule = '|' + '|'.join('-' * (w + 1) + ('-' if i == 0 else ':') for i, w in enumerate(widths)) + '|'
    return '\n'.join([line(heads), rule] + [line(r) for r in rows])
