"""Files on standard input, each its length in four bytes and its bytes. For each, expat's answer on standard output, likewise: `+` and the
event lines of document 01, with an `open` and a `close` for an empty element; or `-` and what expat says."""

import sys
from xml.parsers import expat

ESCAPES = str.maketrans({"\t": "\\t", "\n": "\\n", "\r": "\\r", "\\": "\\\\"})


def answer(file):
    lines = []

    def start(name, attributes):
        fields = [f"{key}={value.translate(ESCAPES)}" for key, value in zip(attributes[::2], attributes[1::2])]
        lines.append("\t".join(["open", name, *fields]) + "\n")

    parser = expat.ParserCreate()
    parser.ordered_attributes = True
    parser.StartElementHandler = start
    parser.EndElementHandler = lambda name: lines.append("close\n")
    try:
        parser.Parse(file, True)
    except (expat.ExpatError, LookupError, ValueError) as error:
        return "-" + str(error)
    return "+" + "".join(lines)


def main():
    given, told = sys.stdin.buffer, sys.stdout.buffer
    while length := given.read(4):
        text = answer(given.read(int.from_bytes(length, "little"))).encode("utf-8", "replace")
        told.write(len(text).to_bytes(4, "little") + text)


main()
