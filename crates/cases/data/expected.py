#!/usr/bin/env python3
"""What each int, number, guid, version and two of stdin is, worked out from document 01 with Python's own int, Decimal and patterns, not from the library.

Run in the crate's folder: prints each line of stdout that has another answer, then how many were compared."""
import re
from decimal import Decimal, getcontext

getcontext().prec = 200000
BLANKS = b'\t\n\r '


def whole(v):
    m = re.fullmatch(rb'([+-]?)([0-9]+)', v.strip(BLANKS))
    if not m:
        return 'bad'
    n = int(Decimal((m[1] + m[2]).decode()))
    return ('-' if n < 0 else '') + str(min(65536, abs(n)))


def positive(v):
    v = v.strip(BLANKS)
    if not re.fullmatch(rb'\+?(?:[0-9]+\.?[0-9]*|\.[0-9]+)', v):
        return 'bad'
    x = Decimal(v.decode())
    millionths = x * 10**6
    if x <= 0 or x >= 10**7 or millionths != int(millionths):
        return 'bad'
    return str(int(millionths))


def guid(v):
    return 'yes' if re.fullmatch(rb'[0-9a-f]{8}(?:-[0-9a-f]{4}){3}-[0-9a-f]{12}', v) else 'no'


def version(v):
    return 'yes' if re.fullmatch(rb'[0-9]{1,3}\.[0-9]{1,3}', v) else 'no'


def plain(v):
    """The bytes that the escapes of a line stand for."""
    def piece(m):
        byte = bytes([int(m[2], 16)]) if m[2] else m[3]
        return byte * int(m[1] or 1)
    return re.sub(rb'(?:\\\{([0-9]+)\})?(?:\\x([0-9a-f]{2})|([^\\]))', piece, v)


CALLS = {b'int': whole, b'two': whole, b'number': positive, b'guid': guid, b'version': version}

assert [whole(x) for x in (b'-0', b' +01 ', b'1.0')] == ['0', '1', 'bad']
assert [positive(x) for x in (b'160.50', b'.5', b'0.0000010', b'0.0000001', b'0')] == ['160500000', '500000', '1', 'bad', 'bad']
assert plain(rb'\{3}0\x09\{2}\x0a') == b'000\t\n\n'

answers = set(open('stdout', 'rb').read().split(b'\n'))
count = 0
for line in open('stdin', 'rb').read().split(b'\n'):
    m = re.fullmatch(rb'(int|two|number|guid|version)(?: [0-9]+)?\t(.*)', line, re.S)
    if m:
        meant = line + b': ' + CALLS[m[1]](plain(m[2])).encode()
        count += 1
        if meant not in answers:
            print('not in stdout:', meant.decode())
print(count, 'compared')
