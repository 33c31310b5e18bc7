import sys

sys.stdout.buffer.write(b"\n" * 1048577)
