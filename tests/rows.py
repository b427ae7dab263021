#!/usr/bin/env python3
"""Runs the program on each row of tests/rows/*.toml: what it leaves has to be, byte for byte, what stands in the row.

A file of rows says in `count` how many it holds, each with each of its calls. A table of rows has a `title`, and `columns`
that name the cells of its `rows`. What stands in the table beside them holds for each of its rows, and a table without `rows`
is a row itself. These names mean:

  call      the words after the program's name, as a shell takes them apart, or a list of such calls
  status    the exit status
  text      what stands on the output, as far as there is room; nothing where it isn't given
  line      the line on the error output, without its end; nothing where it isn't given
  room      how many bytes the output takes before a write fails; all where it isn't given
  pipes     names of pipes that nobody writes to: a program that opens one hangs, and the row fails
  changed   the name of the file that `changes` is about: a part of it, what stands in its place, the next part ..
  mounting  whether the changes of the rows above come first

Any other name is that of a file, with what it holds. Beside it lies the folder of the examples. In each of these texts `$name`
stands for a text of [texts], there or in texts.toml: it is written down, that of a `file`, or a `repeat`ed one, so many `times`,
in which {number} is counted from `first` or else from 0, and {next} and {before} are the numbers beside it."""
import argparse
import glob
import os
import resource
import shlex
import string
import subprocess
import sys
import tempfile
import tomllib

ROOT = os.path.dirname(os.path.dirname(os.path.abspath(__file__)))
FOLDER = os.path.join(ROOT, "tests", "rows")
SHARED = os.path.join(FOLDER, "texts.toml")
WORDS = {"title", "number", "call", "status", "text", "line", "room", "pipes", "changed", "changes", "mounting"}


def filled(text, texts):
    return string.Template(text).substitute(texts)


def text_of(given, texts):
    """A text that is written down, that of a file, or one that is repeated."""
    if isinstance(given, str):
        return filled(given, texts)
    if "file" in given:
        with open(os.path.join(ROOT, given["file"]), encoding="utf-8", newline="") as file:
            return file.read()
    part, first = filled(given["repeat"], texts), given.get("first", 0)
    if "{" not in part:
        return part * given["times"]
    return "".join(part.format(number=at, next=at + 1, before=at - 1) for at in range(first, first + given["times"]))


def read(path, texts):
    """What a file of rows holds, and the texts that it may name."""
    with open(path, "rb") as file:
        given = tomllib.load(file)
    texts = dict(texts)
    for name, text in given.get("texts", {}).items():
        texts[name] = text_of(text, texts)
    return given, texts


def rows_of(given):
    """Each row, one for each of its calls."""
    for table in given.get("tables", []):
        plain = {name: cell for name, cell in table.items() if name not in ("columns", "rows")}
        changes = []
        for number, cells in enumerate(table.get("rows", [[]]), 1):
            row = {**plain, **dict(zip(table.get("columns", []), cells, strict=True)), "number": number}
            changes = changes * row.get("mounting", False) + row.get("changes", [])
            for call in [row["call"]] if isinstance(row["call"], str) else row["call"]:
                yield {**row, "call": call, "changes": changes}


def files_of(row, texts):
    """The files of a row by their names."""
    files = {name: filled(text, texts) for name, text in row.items() if name not in WORDS}
    for old, new in zip(row["changes"][::2], row["changes"][1::2], strict=True):
        if old == new or old not in files[row["changed"]]:
            raise ValueError(f"no part {old!r} to change")
        files[row["changed"]] = files[row["changed"]].replace(old, new, 1)
    return files


def left_by(program, row, texts, seconds):
    """The status, the output and the error output that a row's call leaves in a folder with its files."""
    with tempfile.TemporaryDirectory() as folder, tempfile.TemporaryFile() as out:
        os.symlink(os.path.join(ROOT, "examples"), os.path.join(folder, "examples"))
        for name, text in files_of(row, texts).items():
            with open(os.path.join(folder, name), "wb") as file:
                file.write(text.encode())
        for name in row.get("pipes", []):
            os.mkfifo(os.path.join(folder, name))
        call = [program, *shlex.split(filled(row["call"], texts))]
        limit = (row["room"], row["room"]) if "room" in row else resource.getrlimit(resource.RLIMIT_FSIZE)
        # The signal for a write past the limit stays ignored, as it is in Python: the write fails.
        done = subprocess.run(call, cwd=folder, stdin=subprocess.DEVNULL, stdout=out, stderr=subprocess.PIPE, timeout=seconds,
                              check=False, restore_signals=False,
                              preexec_fn=lambda: resource.setrlimit(resource.RLIMIT_FSIZE, limit))
        out.seek(0)
        return done.returncode, out.read(), done.stderr


def fault_of(program, row, texts, seconds=100):
    """What is wrong with what a row leaves, if anything is."""
    line = filled(row.get("line", ""), texts)
    expected = row["status"], filled(row.get("text", ""), texts).encode()[:row.get("room")], (line and line + "\n").encode()
    try:
        left = left_by(program, row, texts, seconds)
    except (ValueError, subprocess.TimeoutExpired) as error:
        return str(error)[:400]
    names = ("status", "output", "error output")
    return "; ".join(f"{name} {seen!r:.300}, not {due!r:.300}"
                     for name, seen, due in zip(names, left, expected) if seen != due)


def fault_at_once(script, row, texts):
    """What is wrong with the answer of the script `cts` without a program and without rt, for a row of wrong words or of a file
    that can't be read. It comes within a second. Where the program would judge a file before it, the script says that rt is missing."""
    if row["status"] == 4 and row["line"] != "read fault bench":
        return "" if left_by(script, row, texts, 1)[:2] == (127, b"") else "an answer before the netlist is judged"
    return fault_of(script, row, texts, 1)


def main():
    words = argparse.ArgumentParser(description=__doc__, formatter_class=argparse.RawDescriptionHelpFormatter)
    words.add_argument("program", nargs="?", help="without it the proved one, built first where it is of other sources")
    words.add_argument("--at-once", action="store_true", help="the program is the script, with no program and no rt: only rows of wrong "
                       "words and of files that can't be read are run, each within a second")
    words.add_argument("--text", metavar="NAME", help="print this text of texts.toml, and run no row")
    given = words.parse_args()
    shared = read(SHARED, {})[1]
    if given.text:
        print(end=shared[given.text])
        return 0
    if not given.program:
        subprocess.run([os.path.join(ROOT, "cts"), "build"], check=True)
    program = os.path.abspath(given.program or os.path.join(ROOT, "crates/cts_program/out/cts_program"))
    passed, failed = 0, 0
    for path in sorted(set(glob.glob(os.path.join(FOLDER, "*.toml"))) - {SHARED}):
        held, texts = read(path, shared)
        name, rows = os.path.basename(path), list(rows_of(held))
        if len(rows) != held["count"]:
            print(f"rows: {name} holds {len(rows)} rows, and not {held['count']}")
            failed += 1
        for row in rows:
            # The script answers words of help itself.
            if given.at_once and (row["status"] not in (2, 4) or "--help" in row["call"]):
                continue
            fault = (fault_at_once if given.at_once else fault_of)(program, row, texts)
            if fault:
                print(f"rows: {name}, {row['title']}, row {row['number']}: {row['call']}: {fault}")
            failed += bool(fault)
            passed += not fault
    print(f"rows: {passed} passed, {failed} failed")
    return 1 if failed or not passed else 0


sys.exit(main())
