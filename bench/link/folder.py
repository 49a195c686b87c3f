"""Writes a folder of class files: folder.py FOLDER COUNT

Beside `java.lang.Object` there are COUNT classes, each with three static methods that log a text and call the method of the same name in the next class.
"""
import os
import struct
import sys

POSITION = bytes(12)
METHODS = ("one", "two", "three")


def number(n):
    return struct.pack(">I", n)


def table(texts):
    return number(len(texts)) + b"".join(number(len(t)) + t for t in texts)


def file(names, methods, strings, body):
    """A class file with these tables."""
    return b"\xca\xfeJS\0\x061.0-i1" + table([b""]) + table(names) + number(len(methods)) + b"".join(number(m) + number(0) + b"\x01" for m in methods) + table(strings) + body


def head(super_class, members):
    return POSITION + number(0) + b"\x01" + super_class + number(0) + number(members)


def log(string):
    return b"\x29" + POSITION + b"\x26" + POSITION + number(string)


def call(class_name, method):
    return b"\x15" + POSITION + number(class_name) + b"\x01" + number(method) + number(0) + b"\x0e"


def method(name, body):
    """A public static method without parameters and result."""
    return b"\x02" + POSITION + b"\x01" + number(name) + number(0) + b"\x0e\x01" + body + b"\0"


def class_file(k, count):
    names = [f"bench.C{k}".encode(), b"java.lang.Object", f"bench.C{k + 1}".encode(), *(m.encode() for m in METHODS)]
    strings = [f"{m} of {k}".encode() for m in METHODS]
    bodies = [b"\x03" + POSITION + number(2) + log(i) + call(2, i) if k + 1 < count else log(i) for i in range(3)]
    return file(names, [3, 4, 5], strings, head(b"\x01" + number(1), 3) + b"".join(method(i, body) for i, body in enumerate(bodies)))


def main(folder, count):
    os.makedirs(folder)
    with open(f"{folder}/java.lang.Object.sjsir", "wb") as out:
        out.write(file([b"java.lang.Object"], [], [], head(b"\0", 0)))
    for k in range(count):
        with open(f"{folder}/bench.C{k}.sjsir", "wb") as out:
            out.write(class_file(k, count))


main(sys.argv[1], int(sys.argv[2]))
