import sys

sys.stdout.buffer.write(b'a="' * 1 + b'%{if b}' * 257 + b'%{endif}' * 257 + b'"\n' * 1)
