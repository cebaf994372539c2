#!/usr/bin/env python3
"""Writes crates/utf8_vectors/stdin and stdout: published UTF-8 vectors, and what they are by Python.

Run it in the root of the repository: python3 tools/utf8_vectors.py. It takes no input and writes the same files each time.

A line of stdin is the bytes of a sequence in hexadecimal, a tab, and 1 where the sequence is text or 0 where it is not. What is
text is decided here by Python's strict UTF-8 decoder and XML 1.0's production Char, and by nothing of this repository. The
sequences are those of the Unicode standard: table 3-7 at all its boundaries, tables 3-8 to 3-11, sequences of the kinds that its section 3.9
speaks of; and XML 1.0's boundaries.
"""
from itertools import product

# Table 3-7, "Well-Formed UTF-8 Byte Sequences": the lowest and the highest value of each byte.
TABLE_3_7 = [
    [(0x00, 0x7F)],
    [(0xC2, 0xDF), (0x80, 0xBF)],
    [(0xE0, 0xE0), (0xA0, 0xBF), (0x80, 0xBF)],
    [(0xE1, 0xEC), (0x80, 0xBF), (0x80, 0xBF)],
    [(0xED, 0xED), (0x80, 0x9F), (0x80, 0xBF)],
    [(0xEE, 0xEF), (0x80, 0xBF), (0x80, 0xBF)],
    [(0xF0, 0xF0), (0x90, 0xBF), (0x80, 0xBF), (0x80, 0xBF)],
    [(0xF1, 0xF3), (0x80, 0xBF), (0x80, 0xBF), (0x80, 0xBF)],
    [(0xF4, 0xF4), (0x80, 0x8F), (0x80, 0xBF), (0x80, 0xBF)],
]

# Well-formed and ill-formed sequences of the kinds that section 3.9 speaks of, and the forms of five and six bytes that UTF-8 once had.
KINDS = """
4D; D0 B0; E4 BA 8C; F0 90 8C 82; 4D D0 B0 E4 BA 8C F0 90 8C 82
C0 AF; E0 9F 80; F4 80 83 92; 41 C3 B1 42; 41 C2 C3 B1 42; C2 41; C2 41 42; C2 7F; E0 80 80; E1 A0 C2; E1 A0 C2 A2
C0 80 61 F3; F4 90 80 80; F8 88 80 80 80; FC 84 80 80 80 80; FE; FF; 80; BF
"""

# Tables 3-8 to 3-11: non-shortest forms, surrogates, other ill-formed sequences, truncated sequences.
TABLES_3_8_TO_3_11 = """
C0 AF E0 80 BF F0 81 82 41
ED A0 80 ED BF BF ED AF 41
F4 91 92 93 FF 41 80 BF 42
E1 80 E2 F0 91 92 F1 BF 41
"""

# XML 1.0's boundaries and the planes' last code points, surrogates among them.
CODE_POINTS = [
    0x00, 0x01, 0x08, 0x09, 0x0A, 0x0B, 0x0C, 0x0D, 0x0E, 0x0F, 0x1F, 0x20, 0x5C, 0x7E, 0x7F, 0x80, 0x84, 0x85, 0x86, 0x9F, 0xA0,
    0x7FF, 0x800, 0xFFF, 0x1000, 0x2028, 0xCFFF, 0xD000, 0xD7FF, 0xD800, 0xDBFF, 0xDC00, 0xDFFF, 0xE000, 0xFDCF, 0xFDD0, 0xFDEF,
    0xFEFF, 0xFFFC, 0xFFFD, 0xFFFE, 0xFFFF, 0x10000, 0x1FFFD, 0x1FFFE, 0x1FFFF, 0x20000, 0x3FFFF, 0x40000, 0xFFFFF, 0x100000,
    0x10FFFD, 0x10FFFE, 0x10FFFF,
]


def is_char(c):
    """XML 1.0, production [2]."""
    return c in (0x9, 0xA, 0xD) or 0x20 <= c <= 0xD7FF or 0xE000 <= c <= 0xFFFD or 0x10000 <= c <= 0x10FFFF


def is_text(sequence):
    try:
        return all(is_char(ord(c)) for c in sequence.decode('utf-8', 'strict'))
    except UnicodeDecodeError:
        return False


def parsed(examples):
    return [bytes.fromhex(x) for line in examples.strip().split('\n') for x in line.split(';')]


def sequences():
    yield b''
    for row in TABLE_3_7:
        at = [[x for x in (low - 1, low, high, high + 1) if 0 <= x <= 255] for low, high in row]
        for n in range(1, len(row) + 1):
            yield from (bytes(s) for s in product(*at[:n]))
    yield from parsed(KINDS)
    yield from parsed(TABLES_3_8_TO_3_11)
    for c in CODE_POINTS:
        s = chr(c).encode('utf-8', 'surrogatepass')
        yield from (s, b'a' + s, s + b'a', s + s, s[:-1], s + b'\x80')


def accepted():
    """How many sequences of one, two and three bytes are text, from the lengths of all legal characters' encodings."""
    sizes = [len(chr(c).encode('utf-8')) for c in range(0x110000) if is_char(c)]
    one, two, three = (sizes.count(n) for n in (1, 2, 3))
    return one, one * one + two, one * one * one + 2 * one * two + three


def main():
    vectors = list(dict.fromkeys(sequences()))
    with open('crates/utf8_vectors/stdin', 'w', encoding='ascii') as f:
        f.writelines('%s\t%d\n' % (s.hex().upper(), is_text(s)) for s in vectors)
    with open('crates/utf8_vectors/stdout', 'w', encoding='ascii') as f:
        f.write('vectors\t%d\tmismatches\t0\n' % len(vectors))
        f.writelines('bytes\t%d\taccepted\t%d\n' % (n, k) for n, k in enumerate(accepted(), 1))


if __name__ == '__main__':
    main()
