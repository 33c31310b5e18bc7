"""Files of 4 MiB, and one of a byte at the end."""
for name in 'abcdefgh':
    with open(name + '.tf', 'wb') as out:
        out.write(b'\n' * 4_194_304)
with open('i.tf', 'wb') as out:
    out.write(b'\n')
