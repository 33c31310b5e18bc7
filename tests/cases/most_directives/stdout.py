import sys

sys.stdout.buffer.write(b'a = "' * 1 + b'%{if b}' * 256 + b'%{endif}' * 256 + b'"\n' * 1)
