#!/usr/bin/env python3
"""Makes of share/commands.txt, of the tables of docs/FORMATS.md and docs/REPORT.md, and of the version in the script `cts`:

  share/cts.1         the man page
  share/cts.bash      what bash completes
  share/_cts          what zsh completes
  share/faults.txt    what each line on the error output means, for the script
  README.md, docs/COMMANDS.md    the tables of commands and statuses

usage: share/make.py [--check]     with --check it writes nothing, says what differs, and ends with status 1 where anything does"""
import os
import re
import sys
import tomllib

TOP = os.path.dirname(os.path.dirname(os.path.abspath(__file__)))
FAULT_PAGES = ("docs/FORMATS.md", "docs/REPORT.md")


def text_of(name):
    with open(os.path.join(TOP, name), encoding="utf-8") as file:
        return file.read()


class Commands:
    """What share/commands.txt holds, each as it stands there."""

    def __init__(self):
        self.commands, self.options, self.statuses, self.own = {}, {}, {}, {}
        fields = None
        for line in text_of("share/commands.txt").splitlines():
            key, _, rest = line.partition(" ")
            if not line or key == "#":
                continue
            word, _, more = rest.partition(" ")
            if key == "command":
                fields = self.commands[word] = {}
            elif key == "option":
                value, _, says = more.partition(" ")
                self.options[word] = value, says
            elif key == "status":
                self.statuses[word] = more
            elif key == "own":
                self.own[word] = more
            else:
                fields[key] = rest

    def options_of(self, name):
        return re.findall(r"--[a-z]+", self.commands[name]["usage"])

    def usage(self):
        """The line with which the program answers words that are no command."""
        return "usage: " + " | ".join(f"cts {name} {one['usage']}" for name, one in self.commands.items())


def version():
    return re.search(r"^version=(.*)$", text_of("cts"), re.MULTILINE)[1]


def tables(page):
    """The tables of a page, each as rows of cells with the head first."""
    for block in re.findall(r"(?:^\|.*\n)+", text_of(page), re.MULTILINE):
        yield [[cell.strip() for cell in re.split(r"(?<!\\)\|", row)[1:-1]] for row in block.splitlines() if not row.startswith("|---")]


def faults():
    """Each line on the error output with what it says, in which the words of capitals in braces are those of the line."""
    for page in FAULT_PAGES:
        for head, *rows in tables(page):
            for line, says in rows if head[0] == "Line on the error output" else ():
                # A table of a corner has the faults of any other, which stand once.
                if "` to `" in line:
                    continue
                says = f"{head[1][0].lower()}{head[1][1:]} {says}".replace("`", "")
                for word in re.findall(r"\b[A-Z]+\b", line):
                    says = re.sub(rf"\b{word}\b", "{" + word + "}", says)
                yield line.strip("`"), says


def keys():
    """Each key of a delay table with what its value is."""
    for head, *rows in tables("docs/FORMATS.md"):
        if head[:2] == ["Key", "Value"]:
            for names, value, _ in rows:
                first, *others = re.findall(r"`([\w.]+)`", names)
                for name in [first, *others]:
                    # `.greatest` stands for the key beside the first one.
                    name = first.rpartition(".")[0] + name if name.startswith(".") else name
                    yield name, value.replace("`", "")


def fault_table(commands):
    rows = [f"line\t{pattern}\t{says}" for pattern, says in faults()]
    rows += [f"line\t{line}\t{commands.statuses[status]}" for line, status in (("write fault", "5"), ("no memory", "6"))]
    rows += [f"key\t{name}\t{value}" for name, value in keys()]
    return "".join(f"{row}\n" for row in rows)


def plain(text):
    return text.replace("`", "")


def roff(text):
    return plain(text).replace("\\", "\\e").replace("-", "\\-").replace("'", "\\(aq")


def man_page(commands):
    lines = [f'.TH CTS 1 "" "cts {version()}" "User commands"', ".SH NAME",
             "cts \\- the clock tree synthesizer that proves its answer", ".SH SYNOPSIS"]
    for name, one in commands.commands.items():
        lines += [f".B cts {name}", roff(one["usage"]), ".br"]
    lines += [".SH DESCRIPTION",
              "Finds the least clock period of a sequential netlist with useful skew, and a clock tree that makes it so.",
              "A file is named by F, a period in ticks by P, and delay tables by T1 to Tk.", ".SH COMMANDS"]
    for name, one in commands.commands.items():
        lines += [".TP", f".B {name}", roff(one["says"]) + ".", f"It prints {roff(one['prints'])}.",
                  f"Its statuses are {', '.join(one['statuses'].split())}."]
    lines.append(".SH OTHER WORDS")
    for word, says in commands.own.items():
        lines += [".TP", f".B {roff(word)}", roff(says) + "."]
    lines.append(".SH OPTIONS")
    for word, (value, says) in commands.options.items():
        lines += [".TP", f".B {roff(word)} {value}", roff(says) + "."]
    lines.append(".SH EXIT STATUS")
    for status, says in commands.statuses.items():
        lines += [".TP", f".B {status}", roff(says) + "."]
    lines.append(".SH EXAMPLES")
    for name, one in commands.commands.items():
        lines += [".br", f"cts {name} {roff(one['example'])}"]
    return "\n".join(lines) + "\n"


def bash_completion(commands):
    cases = "".join(f"        {name}) options='{' '.join(commands.options_of(name))}' ;;\n" for name in commands.commands)
    return f"""# Completion of cts for bash, made by share/make.py.
_cts() {{
    local word=${{COMP_WORDS[COMP_CWORD]}} before=${{COMP_WORDS[COMP_CWORD - 1]}} options=
    COMPREPLY=()
    if [ "$COMP_CWORD" -eq 1 ]; then
        mapfile -t COMPREPLY < <(compgen -W '{" ".join([*commands.commands, *commands.own])}' -- "$word")
        return
    fi
    case ${{COMP_WORDS[1]}} in
{cases}        install | uninstall) options=--prefix ;;
        build) options=library ;;
        help) options='{" ".join(commands.commands)}' ;;
    esac
    case $before in
        {" | ".join(word for word, (value, _) in commands.options.items() if value != "F")}) ;;
        --*) compopt -o filenames && mapfile -t COMPREPLY < <(compgen -f -- "$word") ;;
        *)
            mapfile -t COMPREPLY < <(compgen -W "$options" -- "$word")
            [ "${{COMP_WORDS[1]}}" != corners ] || [ "$COMP_CWORD" -lt 4 ] || {{
                compopt -o filenames && mapfile -t COMPREPLY < <(compgen -f -- "$word")
            }}
            ;;
    esac
}}
complete -F _cts cts
"""


def zsh_completion(commands):
    def quoted(text):
        return plain(text).replace("'", "'\\''").replace(":", "\\:").replace("[", "\\[").replace("]", "\\]")

    names = "".join(f"    '{name}:{quoted(says)}'\n" for name, says in
                    [*((name, one["says"]) for name, one in commands.commands.items()), *commands.own.items()])
    cases = ""
    for name, one in commands.commands.items():
        words = [f"'{word}[{quoted(commands.options[word][1])}]:value:{'_files' if commands.options[word][0] == 'F' else ''}'"
                 for word in commands.options_of(name)]
        words += ["'*:table:_files'"] if one["usage"].endswith("T1 .. Tk") else []
        cases += f"        {name}) _arguments {' '.join(words)} ;;\n"
    return f"""#compdef cts
# Completion of cts for zsh, made by share/make.py.
local -a commands
commands=(
{names})
if (( CURRENT == 2 )); then
    _describe command commands
else
    shift words
    (( CURRENT-- ))
    case $words[1] in
{cases}        install|uninstall) _arguments '--prefix[below this folder]:folder:_files -/' ;;
        build) _values word library ;;
        help) _describe command commands ;;
    esac
fi
"""


def with_table(page, head, rows):
    """The page with these rows in its table of this head."""
    table = "".join(f"| {' | '.join(row)} |\n" for row in rows)
    head = re.escape(f"| {' | '.join(head)} |\n|") + r"[-|]+\n"
    made, count = re.subn(rf"(^{head})(?:^\|.*\n)*", lambda found: found[1] + table, page, flags=re.MULTILINE)
    if count != 1:
        sys.exit(f"make: {count} tables have the head {head}")
    return made


def readme(commands):
    rows = [(f"`./cts {name} {one['example']}`", one["says"]) for name, one in commands.commands.items()]
    return with_table(text_of("README.md"), ("Command, with its files in `examples/`", "What it answers"), rows)


def commands_page(commands):
    rows = [(f"`{name}`", f"`{one['usage']}`", one["says"]) for name, one in commands.commands.items()]
    page = with_table(text_of("docs/COMMANDS.md"), ("Command", "Options", "What it answers"), rows)
    head = ("Status", "What it says", "On the error output")
    told = next({row[0]: row[2] for row in rows} for first, *rows in tables("docs/COMMANDS.md") if first == list(head))
    return with_table(page, head, [(status, says, told[status]) for status, says in commands.statuses.items()])


def faults_left_out(commands):
    """The lines of the rows of tests/rows, and the faults of the program's own table, that no pattern tells."""
    patterns = [pattern for pattern, _ in faults()] + ["write fault", "no memory"]
    forms = [re.compile(re.sub(r"\\ \\\.\\\.$", r"( \\S+)*", re.sub(r"\b[A-Z]+\b", r"\\S+", re.escape(one)))) for one in patterns]
    lines = set()
    folder = os.path.join(TOP, "tests/rows")
    for name in os.listdir(folder):
        lines.update(re.findall(r'"((?:refused|not shown|write fault|no memory)[^"]*)"', text_of(f"tests/rows/{name}")))
    for line in sorted(lines):
        one = re.sub(r"^refused corner \d+ tech", "refused tech", line)
        if "$" not in one and not any(form.fullmatch(one) for form in forms):
            yield f"no row says what `{line}` means"
    for kind, number in set(re.findall(r"Refused\((\w+), (\d+),", text_of("crates/failure_lines/src/refusals.rt"))):
        word = {"Bench": "refused bench", "Topology": "refused topology", "Moves": "refused moves", "kind": "refused tech",
                "Report": "not shown report", "Placement": "refused pl"}[kind]
        if not any(one.startswith(f"{word} {number}") for one in patterns):
            yield f"no row says what `{word} {number}` means"
    if commands.usage() != tomllib.loads(text_of("tests/rows/texts.toml"))["texts"]["usage"]:
        yield "the usage line is another one than that of tests/rows/texts.toml"
    if not re.search(rf"^## {re.escape(version())}(?: |$)", text_of("CHANGELOG.md"), re.MULTILINE):
        yield f"CHANGELOG.md has no version {version()}"


def main():
    if sys.argv[1:] not in ([], ["--check"]):
        print(__doc__)
        return sys.argv[1:] not in (["--help"], ["-h"])
    commands = Commands()
    made = {"share/faults.txt": fault_table(commands), "share/cts.1": man_page(commands), "share/cts.bash": bash_completion(commands),
            "share/_cts": zsh_completion(commands), "README.md": readme(commands), "docs/COMMANDS.md": commands_page(commands)}
    found = list(faults_left_out(commands))
    for name, text in made.items():
        if os.path.exists(os.path.join(TOP, name)) and text_of(name) == text:
            continue
        if sys.argv[1:]:
            found.append(f"{name} isn't what share/make.py makes")
        else:
            with open(os.path.join(TOP, name), "w", encoding="utf-8") as file:
                file.write(text)
    for fault in found:
        print(f"make: {fault}")
    return bool(found)


sys.exit(main())
