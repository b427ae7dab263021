#!/usr/bin/env python3
"""The library from Python: three commands of the program, with their files as plain words.

    library.py LIBRARY synth BENCH TECH PL
    library.py LIBRARY schedule BENCH TECH
    library.py LIBRARY check BENCH TECH PL REPORT

LIBRARY is a shared object, made of the archive and c/cts_heap.c:

    cc -shared -o libcts.so c/cts_heap.c -fPIC -Wl,--whole-archive crates/cts_c/out/libcts_c.a -Wl,--no-whole-archive

Texts and statuses are those of the program. What stands against a report is printed as numbers."""

import ctypes
import sys

DONE, TOO_SMALL, NOT_SHOWN = 0, 5, 7


class Finding(ctypes.Structure):
    """What stands against a report: struct cts_finding of include/cts.h."""

    _fields_ = [(name, ctypes.c_uint32) for name in ("kind", "number", "place")]


def sized(texts):
    """Texts as the calls take them: each a pointer and a number of bytes."""
    return [part for text in texts for part in (ctypes.c_char_p(text), ctypes.c_size_t(len(text)))]


def answer(call, texts):
    """The status of a call that answers a text, and the text: a second call has the buffer that it wants."""
    out = ctypes.create_string_buffer(1)
    size = ctypes.c_size_t(0)
    while True:
        status = call(*sized(texts), out, ctypes.c_size_t(len(out)), ctypes.byref(size))
        if status != TOO_SMALL:
            return status, out.raw[: size.value]
        out = ctypes.create_string_buffer(size.value)


def check(library, texts):
    """The status of a check, and what stands against the report."""
    finding = Finding()
    return library.cts_check(*sized(texts), ctypes.byref(finding)), finding


def main():
    library = ctypes.CDLL(sys.argv[1])
    command, files = sys.argv[2], sys.argv[3:]
    texts = [open(name, "rb").read() for name in files]
    if command == "check":
        status, finding = check(library, texts)
        if status == DONE:
            print("shown")
        if status == NOT_SHOWN:
            print("not shown", finding.kind, finding.number, finding.place)
        return status
    status, text = answer(getattr(library, "cts_" + command), texts)
    sys.stdout.buffer.write(text)
    return status


if __name__ == "__main__":
    sys.exit(main())
