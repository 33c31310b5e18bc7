import sys

sys.stdout.buffer.write(b"\n" * 4194305)
