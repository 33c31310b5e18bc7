"""Modules for the linter's benchmarks: ordinary ones, and writing a module to a folder."""

import inputs
from measure import MAX, MIB, best, in_ms, memory, table


def in_files(pieces):
    """The pieces one after another, in files that are as large as they may be."""
    files, text, length = [], [], 0
    for piece in pieces:
        if length + len(piece) > MAX:
            files.append(b''.join(text))
            text, length = [], 0
        text.append(piece)
        length += len(piece)
    return files + [b''.join(text)]


def ordinary(size):
    """Ordinary configuration with names that all differ, with at most a number of bytes."""
    files, left = [], size
    while left > 0:
        files.append(inputs.messy(int(min(left, MAX) / 0.95), len(files) * 10_000))
        left -= MAX
    return files


def _declarations(number):
    """Small declarations with a comment before each, some of them with something to report."""
    return (
        '# Zone %(n)d, by its number.\n'
        'variable "zone_%(n)d" {\n  type        = string\n  description = "The zone."\n}\n\n'
        '// How large it is.\n'
        'variable "size%(n)d" { default = 2 }\n\n'
        '# What others read of it.\n'
        'output "url_%(n)d" {\n  description = "Where it is."\n  value       = "x${var.zone_%(n)d}"\n}\n\n'
        'locals {\n  name_%(n)d = "zone-${var.size%(n)d}" # short\n  tags_%(n)d = [local.name_%(n)d, local.all[0]]\n}\n\n'
        '# As large as it was.\n'
        'module "net_%(n)d" {\n  source = "git::https://example.com/net.git?ref=v1"\n  tags   = local.tags_%(n)d\n}\n\n'
        '# Asked for by the module above.\n'
        'data "image" "base_%(n)d" {\n  most_recent = true # the last\n}\n\n' % {'n': number}
    ).encode()


def declared(size):
    """Small declarations and comments with names that all differ, as many as fit into this many bytes."""
    pieces, left, number = [], size, 0
    while True:
        piece = _declarations(number)
        if len(piece) > left:
            return in_files(pieces)
        pieces.append(piece)
        left -= len(piece)
        number += 1


def lay(folder, files):
    """Writes the files to a folder, and returns their names."""
    folder.mkdir(parents=True, exist_ok=True)
    names = []
    for number, text in enumerate(files):
        assert len(text) <= MAX, folder
        names.append(str(folder / ('%02d.tf' % number)))
        (folder / names[-1]).write_bytes(text)
    return names


def ordinary_table(words, store, times, measured=None):
    """Time and memory on ordinary modules, and by `measured`, a function of a job, one more figure.

    What is stored of a file of 4 MiB is derived from the peaks of the modules of one such file and of eight. The goal
    on memory is for the peak less what is stored of all files.
    """
    sizes = [('1 MiB', MIB), ('4 MiB', MAX), ('8 MiB', 2 * MAX), ('32 MiB', 8 * MAX)]
    modules = [ordinary(size) for _, size in sizes]
    jobs = [
        (words + lay(store / label.replace(' ', '-'), files), '/dev/null') for (label, _), files in zip(sizes, modules)
    ]
    found = best(jobs, times)
    peaks = [memory(*job) for job in jobs]
    rows = []
    for (label, _), files, (taken, status), peak, job in zip(sizes, modules, found, peaks, jobs):
        size = sum(map(len, files))
        rows.append(
            [
                label,
                str(len(files)),
                format(size, ','),
                str(status),
                in_ms(taken),
                '%.1f' % (size / taken / 1e6),
                '%.1f MiB' % (peak / MIB) if peak else '',
            ]
        )
        if measured:
            figure = measured(*job)
            rows[-1] += [format(figure, ','), '%.0f' % (figure / size)] if figure else ['', '']
    shown = table(
        ['module', 'files', 'bytes', 'status', 'time', 'MB/s', 'peak']
        + (['instructions', 'a byte'] if measured else []),
        rows,
    )
    if all(peaks):
        kept = (peaks[3] - peaks[1]) / (len(modules[3]) - 1)
        shown += (
            '\n\nStored facts of a file of 4 MiB: %.1f MiB; the peak less those of all files: %.1f MiB, %.1f times the '
            'largest file.' % (kept / MIB, (peaks[1] - kept) / MIB, (peaks[1] - kept) / len(modules[1][0]))
        )
    return shown
