"""Names that collide under the kit's hash with the shared seed.

`front` of a prefix such as `var.` begins texts of 32 bytes that all have one hash, whatever their last 8 bytes are. The
hash takes 16 bytes at a time: it combines their first half with its state and their second half with a constant by xor,
and multiplies the two. So if the first half of the second 16 bytes is the state itself, the product is 0, whatever the
second half is. The front is one whose state can be written as letters, digits, `_` and `-`.
"""

import string

WORD, SEED, MULTIPLIER = (1 << 64) - 1, 0x243F6A8885A308D3, 0x9E3779B97F4A7C15
LENGTH, FREE = 32, 8
IN_NAMES = set((string.ascii_letters + string.digits + '_-').encode())


def number(text):
    return int.from_bytes(text, 'little')


def joined(first, second):
    """The halves of a product, joined."""
    product = first * second
    return product & WORD ^ product >> 64


def state(block):
    """The hash's state after the first 16 of 32 bytes."""
    return joined(number(block[:8]) ^ SEED + LENGTH, number(block[8:]) ^ MULTIPLIER)


def hash_of(text):
    """The hash of a text of 32 bytes, which is followed by a byte that ends it."""
    whole = joined(number(text[16:24]) ^ state(text[:16]), number(text[24:]) ^ MULTIPLIER)
    end = 0xFF | 0xFF << 8 | 0xFF << 16
    return joined(whole ^ end, MULTIPLIER ^ 2)


def front(prefix):
    """A prefix and the text after it, up to the last 8 of the 32 bytes."""
    tried = 0
    while True:
        block = prefix + (b'%x' % tried).rjust(16 - len(prefix), b'n')
        more = state(block).to_bytes(8, 'little')
        if set(more) <= IN_NAMES:
            return block + more
        tried += 1


def names(prefix):
    """What such a text has between the prefix and its last 8 bytes. Checked by the hash itself."""
    begun = front(prefix)
    assert len({hash_of(begun + b'%08d' % end) for end in range(100)}) == 1
    return begun[len(prefix) :]
