import sys

sys.stdout.buffer.write(
    b'b' * 1000
    + b' = 1\n' * 1
    + b'a                                                                                                                                                                                                                                                                                                                                                                                                                                                                                                                                                                                                                                                                                                                                                                                                                                                                                                                                                                                                                                        = 1\n'
    * 4172
)
