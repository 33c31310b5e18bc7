"""Inputs for the benchmarks. Each call gives bytes; the same call gives the same bytes every time.

Ordinary configuration comes in three kinds: `tidy` is in the style already, `messy` has the same tokens with other
blanks, `dense` is mostly signs. `TEXTS` are further kinds of ordinary text. Hostile inputs are made so that both they
and their print have at most the given number of bytes.
"""

import random


def _align(pairs, indent):
    widest = max(len(name) for name, _ in pairs)
    return ['%s%s = %s' % (' ' * indent, name.ljust(widest), value) for name, value in pairs]


def _piece(draw, n):
    """Some blocks in the style, as lines. A line that begins with a NUL is to be kept as it is."""
    zone = draw.choice(['north', 'south', 'east', 'west'])
    lines = ['# Service %d in the %s zone.' % (n, zone)]
    lines += ['variable "size_%d" {' % n]
    lines += _align(
        [
            ('description', '"Number of instances of service %d"' % n),
            ('type', 'number'),
            ('default', str(draw.randint(1, 40))),
        ],
        2,
    )
    lines += ['', '  validation {']
    lines += _align(
        [
            ('condition', 'var.size_%d > 0 && var.size_%d <= 100' % (n, n)),
            ('error_message', '"The size must be between 1 and 100."'),
        ],
        4,
    )
    lines += ['  }', '}', '', 'resource "compute_instance" "service_%d" {' % n]
    lines += _align(
        [
            ('count', 'var.size_%d' % n),
            ('name', '"service-%d-${count.index}"' % n),
            ('zone', 'local.zones["%s"]' % zone),
            ('machine_type', '"standard-%d"' % draw.choice([2, 4, 8])),
            ('tags', '["service", "%s", "tier-%d"]' % (zone, n % 5)),
        ],
        2,
    )
    lines += ['', '  boot_disk {', '    initialize_params {']
    lines += _align([('image', 'data.compute_image.base.self_link'), ('size', str(draw.randint(10, 200)))], 6)
    lines += [
        '    }',
        '  }',
        '',
        '  network_interface {',
        '    subnetwork = module.network.subnets[%d].id' % (n % 7),
        '  }',
        '',
        '  labels = merge(var.labels, {',
    ]
    lines += _align(
        [('service', '"s%d"' % n), ('environment', 'var.environment'), ('managed', draw.choice(['true', 'false']))], 4
    )
    lines += ['  })', '', '  metadata_startup_script = <<-EOT']
    lines += [
        '\0' + text
        for text in [
            '    #!/bin/sh',
            '    set -eu',
            '    hostname "service-%d"' % n,
            '    exec /opt/service --zone ${local.zones["%s"]}' % zone,
            '  EOT',
        ]
    ]
    lines += ['}', '', 'output "addresses_%d" {' % n]
    lines += _align(
        [
            ('description', '"Addresses of service %d"' % n),
            ('value', '[for i in compute_instance.service_%d : i.address if i.ready]' % n),
        ],
        2,
    )
    lines += ['}', '', 'locals {']
    lines += _align(
        [
            ('primary_%d' % n, 'var.size_%d > 1 ? "multi" : "single" # by size' % n),
            ('all_%d' % n, 'concat(local.base, [local.primary_%d])' % n),
        ],
        2,
    )
    lines += ['}', '']
    return lines


def _fill(size, piece, first=0):
    """As many whole pieces as fit, from this number on."""
    text, n = [], first
    left = size
    while True:
        more = piece(n)
        if len(more) > left:
            return b''.join(text)
        text.append(more)
        left -= len(more)
        n += 1


def tidy(size):
    draw = random.Random(1)
    return _fill(size, lambda n: ''.join(it.lstrip('\0') + '\n' for it in _piece(draw, n)).encode())


def messy(size, first=0):
    draw = random.Random(1)
    other = random.Random(2)

    def piece(n):
        lines = []
        for line in _piece(draw, n):
            if line.startswith('\0'):
                lines.append(line[1:])
                continue
            line = line.strip()
            if not line.startswith('#') and ' = ' in line:
                name, value = line.split(' = ', 1)
                line = name.strip() + other.choice(['=', ' =', '= ', '   =  ']) + value
            if other.randrange(3) == 0:
                line = line.replace(', ', ',') if '"' not in line else line
            end = '' if '#' in line or '<<' in line else other.choice(['', '', '  '])
            lines.append(' ' * other.randrange(5) + line + end if line else line)
        return ''.join(it + '\n' for it in lines).encode()

    return _fill(min(size, int(size * 0.95)), piece, first)  # the print may be a little longer


def dense(size):
    def piece(n):
        return (
            'l%d=[for k,v in{a=1,b=[1,2,{c=-d[%d].e}]}:"${k}-${v[0]*(%d+x)}"if!(v==null||k!="")&&f(g(v...),!k)]\n'
            'o%d={for i in[[],[1],[[2,%d]]]:i=>x?y[z]:w.*.q...}\n' % (n, n, n, n, n)
        ).encode()

    return _fill(int(size * 0.68), piece)  # the print is longer


def _named(size, piece, printed):
    """`piece(name)` for one name after the other, as often as input and print have room.

    The names differ, since HashiCorp's parser refuses a name that comes twice. They are all of one length.
    `printed` is how much longer the print of a piece is.
    """
    text, left = [], size
    for n in range(36**3 * 26):
        name = chr(97 + n // 36**3) + ''.join(
            '0123456789abcdefghijklmnopqrstuvwxyz'[n // 36**i % 36] for i in (2, 1, 0)
        )
        more = piece(name.encode())
        left -= len(more) + printed
        if left < 0:
            break
        text.append(more)
    return b''.join(text)


def long_line(size):
    return b'a=[' + b'b,' * ((size - 16) // 3) + b']\n'


def short_lines(size):
    return _named(size, lambda name: name + b'=1\n', 2)


def comment_runs(size):
    return _named(size, lambda name: name + b'=1#x\n' + b'long_name_' + name + b'=22#yy\n', 17)


def groups_on_a_line(size):
    return _named(size, lambda name: name + b'=' + b'(' * 256 + b'1' + b')' * 256 + b'\n', 2)


def groups_on_lines(size):
    deep = 256
    return _named(
        size, lambda name: name + b'=' + b'(\n' * deep + b'1\n' + b')\n' * deep, 2 + 2 * 2 * sum(range(deep)) + 2 * deep
    )


ORDINARY = [('tidy', tidy), ('messy', messy), ('dense', dense)]
HOSTILE = [
    ('one line', long_line),
    ('short lines', short_lines),
    ('comments at line ends', comment_runs),
    ('256 groups on a line', groups_on_a_line),
    ('256 groups on lines', groups_on_lines),
]


# Other ordinary text, each in the style already unless it says otherwise.


def _rows(n, names, values, comments=None):
    """Attributes in a block, with their cells in columns."""
    lines = _align(list(zip(names, values)), 2)
    if comments:
        widest = max(len(line) for line in lines)
        lines = ['%s # %s' % (line.ljust(widest), text) for line, text in zip(lines, comments)]
    return ('locals {\n' + ''.join(line + '\n' for line in lines) + '}\n\n').encode()


def chinese(size):
    return _fill(
        size,
        lambda n: _rows(
            n,
            ['名称_%d' % n, '地址_%d' % n, '服务器数量_%d' % n, 'zone_%d' % n],
            ['"第 %d 个服务"' % n, '"上海市浦东新区"', str(n % 40), 'local.区域["东"]'],
            ['服务的名称', '办公室的地址', '至少一台', '所在区域'],
        ),
    )


def japanese(size):
    """Not in the style."""
    return _fill(
        int(size * 0.9),
        lambda n: (
            '# %d 番目のサービスの設定\nlocals {\n名前_%d="サービス %d"# 表示する名前\nサーバーの数_%d  =%d # 一台以上\n'
            'タグ_%d=["東京","大阪",local.地域]\n}\n' % (n, n, n, n, n % 40, n)
        ).encode(),
    )


def emoji(size):
    return _fill(
        size,
        lambda n: _rows(
            n,
            ['icon_%d' % n, 'status_%d' % n, 'title_%d' % n],
            ['"🚀 launch %d"' % n, '"✅ ready"', '"🎉🎊 party of %d"' % n],
            ['🔧 by hand', 'see above', '⚡ fast'],
        ),
    )


def accents(size):
    return _fill(
        size,
        lambda n: _rows(
            n,
            ['größe_%d' % n, 'prénom_%d' % n, 'dirección_%d' % n],
            ['"Straße %d"' % n, '"Zoë Brontë"', '"Avenida São João"'],
            ['Länge über alles', 'à vérifier', 'según el año'],
        ),
    )


def conditionals(size):
    return _fill(
        size,
        lambda n: _rows(
            n,
            ['count_%d' % n, 'name_%d' % n],
            [
                'var.enabled && var.size > %d ? var.size : 0' % n,
                'var.name != null ? var.name : local.prefix == "" ? "default-%d" : "${local.prefix}-%d"' % (n, n),
            ],
        ),
    )


def cidr_lists(size):
    return _fill(
        size,
        lambda n: (
            'locals {\n  ranges_%d = [\n' % n
            + ''.join('    "10.%d.%d.0/24",\n' % (n % 256, k) for k in range(20))
            + '  ]\n}\n'
        ).encode(),
    )


def json_on_one_line(size):
    return _fill(
        size,
        lambda n: (
            'policy_%d = jsonencode({ Version = "2012-10-17", Statement = [{ Action = ["s3:GetObject", "s3:PutObject"], '
            'Effect = "Allow", Resource = "arn:aws:s3:::bucket-%d/*" }] })\n\n' % (n, n)
        ).encode(),
    )


def json_on_many_lines(size):
    return _fill(
        size,
        lambda n: (
            'policy_%d = jsonencode({\n  Version = "2012-10-17"\n  Statement = [\n    {\n      Action   = ["s3:GetObject"]\n'
            '      Effect   = "Allow"\n      Resource = "arn:aws:s3:::bucket-%d/*"\n    },\n  ]\n})\n\n' % (n, n)
        ).encode(),
    )


def one_string(size):
    return b'text = "' + b'ten words or so of plain text that go on and on, ' * ((size - 16) // 49) + b'"\n'


def base64_values(size):
    draw = random.Random(3)
    letters = 'ABCDEFGHIJKLMNOPQRSTUVWXYZabcdefghijklmnopqrstuvwxyz0123456789+/'
    return _fill(size, lambda n: ('key_%d = "%s=="\n\n' % (n, ''.join(draw.choices(letters, k=1022)))).encode())


def script(size):
    return _fill(
        size,
        lambda n: (
            'user_data_%d = <<-EOT\n' % n
            + ''.join(
                '  if [ -f "/etc/service-%d.conf" ]; then\n    logger "restart ${var.name} $(date)"\n  fi\n' % k
                for k in range(15)
            )
            + 'EOT\n\n'
        ).encode(),
    )


def crlf(size):
    return tidy(size - size // 20).replace(b'\n', b'\r\n')


def one_wide_cell(size):
    return tidy(size - 64) + 'locals {\n  é = 1\n}\n'.encode()


def messy_with_a_long_line(size):
    return messy(size * 2 // 7) + b'locals {\nlong_line=["' + b'x' * 16000 + b'"] # a comment\n}\n'


def four_times(make):
    return lambda size: make(4 * size)


TEXTS = [
    ('Chinese', chinese),
    ('Japanese, not in the style', japanese),
    ('emoji', emoji),
    ('accents', accents),
    ('conditionals', conditionals),
    ('lists of CIDRs', cidr_lists),
    ('jsonencode on one line', json_on_one_line),
    ('jsonencode on many lines', json_on_many_lines),
    ('one long string', one_string),
    ('base64', base64_values),
    ('a script in a heredoc', script),
    ('CRLF', crlf),
    ('tidy, and one wide cell', one_wide_cell),
    ('messy, and one long line', messy_with_a_long_line),
]
# Nearly as large as may be.
LARGE = [('messy, 4 MiB', four_times(messy)), ('dense, 4 MiB', four_times(dense))]
