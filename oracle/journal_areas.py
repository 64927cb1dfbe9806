#!/usr/bin/env python3
# oracle/journal_areas.py: areas of P11 made without the port, from 02's words and Python's zlib: crates/desk_journal/data has the bytes, and
# crates/desk_journal/stdout what is to be shown of them. One area was written under the limit of 128, with a block that a cut left torn, one under 1,024.
import os, struct, zlib

NAMES = {1: 'PubAck', 2: 'PubRec', 3: 'PubComp'}


def block(number, waits):
    """Bytes 0 to 7 the number, 8 to 263 two bits for each identifier, 264 to 507 zero, then the check."""
    marks = bytearray(256)
    for i, w in waits.items():
        marks[(i - 1) // 4] |= w << (2 * ((i - 1) % 4))
    body = struct.pack('>Q', number) + bytes(marks) + bytes(244)
    return body + struct.pack('>I', zlib.crc32(body))


def told(number, waits):
    line = ''.join(' %d %s' % (i, NAMES[waits[i]]) for i in sorted(waits))
    return 'number %d waiting %d%s\n' % (number, len(waits), line)


def shown(blocks):
    """blocks: a pair of number and waits where the block is good, else None"""
    out = ''
    for i, b in enumerate(blocks):
        out += 'block %d: %s' % (i, told(*b) if b else 'not good\n')
    best = max((b for b in blocks if b), key=lambda b: b[0], default=None)
    return out + 'recovered: ' + (told(*best) if best else '33 JournalEmpty\n')


def main():
    data = os.path.join(os.path.dirname(os.path.abspath(__file__)), '..', 'crates', 'desk_journal')
    os.makedirs(os.path.join(data, 'data'), exist_ok=True)
    # saves 4 and 5 stand, save 6 was cut half way through block 2 of 3, over save 3
    four, five, six = {1: 1, 2: 2, 128: 1}, {1: 1, 2: 3, 128: 1}, {2: 3}
    torn = block(6, six)[:256] + block(3, {1: 1})[256:]
    old = block(4, four) + block(5, five) + torn
    # numbers above 128, and the largest 64-bit number
    top = 2 ** 64 - 1
    before, after = {129: 2, 512: 1, 1023: 3, 1024: 2}, {1: 1, 1024: 3}
    new = block(top, after) + block(top - 1, before)
    open(os.path.join(data, 'data', 'area128.bin'), 'wb').write(old)
    open(os.path.join(data, 'data', 'area1024.bin'), 'wb').write(new)
    open(os.path.join(data, 'args'), 'w').write('area128.bin\narea1024.bin\n')
    open(os.path.join(data, 'stdout'), 'w').write(shown([(4, four), (5, five), None]) + shown([(top, after), (top - 1, before)]))


main()
