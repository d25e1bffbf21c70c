#!/usr/bin/env python3
"""usage: many_sections.py COUNT BYTES
Writes a relocatable module for PowerPC: COUNT allocated sections that share the same BYTES bytes of the file, and after
them an executable section of one word, nop."""
import struct
import sys

count, size = int(sys.argv[1]), int(sys.argv[2])
HEADER, ALLOC, EXEC, PROGBITS, STRTAB = 52, 2, 4, 1, 3
NOP = bytes.fromhex("60000000")
names = b"\0.many\0.text\0.shstrtab\0"

at_names = HEADER + size + len(NOP)
at_headers = at_names + len(names)


def header(name, kind, flags, offset, length):
    return struct.pack(">10I", names.index(name), kind, flags, 0, offset, length, 0, 0, 4 if flags else 1, 0)


headers = struct.pack(">10I", *[0] * 10)
headers += header(b".many\0", PROGBITS, ALLOC, HEADER, size) * count
headers += header(b".text\0", PROGBITS, ALLOC | EXEC, HEADER + size, len(NOP))
headers += header(b".shstrtab\0", STRTAB, 0, at_names, len(names))

file = b"\x7fELF\x01\x02\x01" + bytes(9)
file += struct.pack(">HHIIIIIHHHHHH", 1, 20, 1, 0, 0, at_headers, 0, HEADER, 0, 0, 40, count + 3, count + 2)
sys.stdout.buffer.write(file + bytes(size) + NOP + names + headers)
