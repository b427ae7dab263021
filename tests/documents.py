#!/usr/bin/env python3
"""Runs the commands of the README and of the pages of docs/ whose output stands there, compares the two, and counts them. It makes
the pictures of docs/ again and compares these, follows the links between the pages, and looks at the lengths that some have at most
and at what share/make.py makes of tables and pages."""
import argparse
import glob
import os
import re
import subprocess
import sys
import tempfile

ROOT = os.path.dirname(os.path.dirname(os.path.abspath(__file__)))
PAGES = ["README.md", "CONTRIBUTING.md", "CHANGELOG.md"] + sorted(glob.glob("docs/*.md", root_dir=ROOT))
PAGES += sorted(glob.glob("crates/*/README.md", root_dir=ROOT))
MOST_LINES = {"README.md": 130, "docs/PROVING.md": 350}
# How many commands of a page run; of any other page, none.
COUNTS = {"README.md": 7, "docs/COMMANDS.md": 10, "docs/DEFINITIONS.md": 1, "docs/FLOW.md": 1}


# What makes each picture, in a folder with the program and the examples.
BIQUAD = "examples/biquad.bench examples/biquad.toml examples/biquad.pl"
PICTURES = {
    "docs/biquad.svg": "./cts synth --bench examples/biquad.bench --tech examples/biquad.toml --pl examples/biquad.pl > biquad.cts"
                       " && examples/flow/report_to_svg.py biquad.cts",
    "docs/biquad_wire.svg": f"examples/flow/wire_by_period.py {BIQUAD} --svg",
}


def text_of(page):
    with open(os.path.join(ROOT, page), encoding="utf-8") as file:
        return file.read()


def blocks(page):
    """The blocks of commands of a page, each a list of commands with what they print."""
    for block in re.findall(r"^```console\n(.*?)^```$", text_of(page), re.MULTILINE | re.DOTALL):
        parts = re.split(r"^\$ ", block, flags=re.MULTILINE)[1:]
        yield [part.split("\n", 1) for part in parts]


def run_block(commands):
    """The commands whose output is another one, run one after the other in a folder with the program and the examples."""
    with tempfile.TemporaryDirectory() as folder:
        for name in ("cts", "examples"):
            os.symlink(os.path.join(ROOT, name), os.path.join(folder, name))
        for command, expected in commands:
            done = subprocess.run(["bash", "-c", command], cwd=folder, stdout=subprocess.PIPE, stderr=subprocess.STDOUT,
                                  timeout=600, check=False)
            if done.stdout.decode() != expected:
                yield command, done.stdout.decode()


def wrong_pictures():
    """The pictures of docs/ that nothing makes, or that come out otherwise."""
    pictures = sorted(glob.glob("docs/*.svg", root_dir=ROOT))
    for picture in sorted({*pictures, *PICTURES}):
        if picture not in PICTURES or picture not in pictures:
            yield picture, "nothing makes it" if picture in pictures else "it isn't there"
        else:
            yield from ((picture, "it comes out otherwise") for _ in run_block([(PICTURES[picture], text_of(picture))]))


def dead_links(page):
    folder = os.path.dirname(os.path.join(ROOT, page))
    for link in re.findall(r"\]\(([^)#:]+)\)", text_of(page)):
        if not os.path.exists(os.path.join(folder, link)):
            yield link


def main():
    argparse.ArgumentParser(description=__doc__).parse_args()
    # A proved program of these sources is used as it is.
    subprocess.run([os.path.join(ROOT, "cts"), "build"], check=True)
    passed, failed = 0, subprocess.run([os.path.join(ROOT, "share/make.py"), "--check"], check=False).returncode
    for page, most in MOST_LINES.items():
        if text_of(page).count("\n") > most:
            print(f"{page} has more than {most} lines")
            failed += 1
    for page in sorted({*PAGES, *COUNTS}):
        count = sum(map(len, blocks(page)))
        if count != COUNTS.get(page, 0):
            print(f"{page} has {count} commands with their output, and not {COUNTS.get(page, 0)}")
            failed += 1
        for commands in blocks(page):
            wrong = list(run_block(commands))
            for command, output in wrong:
                print(f"{page}: {command}\n{output}", end="")
            failed += len(wrong)
            passed += len(commands) - len(wrong)
        for link in dead_links(page):
            print(f"{page} names {link}, which isn't there")
            failed += 1
    wrong = list(wrong_pictures())
    for picture, reason in wrong:
        print(f"{picture}: {reason}")
    failed += len(wrong)
    passed += len(PICTURES) - len(wrong)
    print(f"{passed} passed, {failed} failed")
    return 1 if failed else 0


sys.exit(main())
