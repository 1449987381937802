"""Runs the commands that README.md, docs/RECIPES.md and docs/capcrypt.1 show behind "$ ", page by page in an empty folder
that has `capcrypt` and `examples`, and compares what they print with the lines behind them. The program is ./capcrypt, or that
which the environment variable CAPCRYPT names. Other pages may be named in the words.

Commands stand in indented blocks of a Markdown page, and in `.Dl` lines and `.Bd -literal` blocks of the manual page, with
continuation lines and here-documents. A line `..` stands for any lines. A command ends with 0, or with N where its last line
says `status=N`. Where a tool of a comment `<!-- needs TOOL.. -->` (`.\\" needs TOOL..`) before a block is missing, this block is
skipped with all that follows in its section. Ends with 1 where a command does otherwise than the page says."""
import os
import pathlib
import re
import shutil
import subprocess
import sys
import tempfile

TOP = pathlib.Path(__file__).resolve().parent.parent
PROGRAM = (TOP / os.environ.get("CAPCRYPT", "./capcrypt")).absolute()
PAGES = [TOP / name for name in ("README.md", "docs/RECIPES.md", "docs/capcrypt.1")]
SECONDS = 900
# All commands of a page run in one shell, as the variables of one may stand in the next. Each is read from a file of its own.
RUNNER = """for told in {0}/*.told; do
    place=${{told%.told}}
    eval "$(cat "$told")" > "$place.said" 2>&1 < /dev/null
    echo $? > "$place.ended"
done"""


class Command:
    """A command with the line where it stands, what it should print and the tool for want of which it is skipped."""

    def __init__(self, line, text, missing):
        self.line, self.text, self.missing, self.printed = line, text, missing, []

    def status(self):
        told = re.match(r"status=(\d+)", self.printed[-1]) if self.printed else None
        return int(told[1]) if told else 0

    def why_not(self, said, ended):
        lines = (r"(?:.*\n)*" if line == ".." else re.escape(line) + r"\n" for line in self.printed)
        if ended != self.status():
            return f"status {ended}, not {self.status()}, and printed:\n{said}"
        if not re.fullmatch("".join(lines), said):
            return f"printed:\n{said}and not:\n" + "".join(f"{line}\n" for line in self.printed)
        return None


def markdown(text):
    """The lines of a page as pairs: what kind, and the text."""
    for line in text.splitlines():
        needs = re.fullmatch(r"<!-- needs (.*) -->", line)
        if needs:
            yield "needs", needs[1]
        elif line.startswith("#"):
            yield "section", line
        elif line.startswith("    "):
            yield "block", line[4:]
        else:
            yield "else", line


def manual(text):
    inside = False
    for line in text.splitlines():
        literal = line.replace("\\e", "\\")
        if line.startswith('.\\" needs '):
            yield "needs", line[10:]
        elif line.startswith(".Sh "):
            yield "section", line
        elif line.startswith(".Dl "):
            yield "block", literal[4:]
        elif line.startswith((".Bd -literal", ".Ed")):
            inside = line.startswith(".Bd")
            yield "else", line
        else:
            yield ("block" if inside else "else"), literal


def is_open(text):
    """Whether more lines belong to this command: one behind a backslash, or those of a here-document."""
    lines = text.split("\n")
    document = re.search(r"<<\s*'?(\w+)'?", text)
    return lines[-1].endswith("\\") or (document is not None and document[1] not in lines[1:])


def commands_of(lines):
    """The commands of a page, with what they should print."""
    found, missing, needs, kind_before = [], None, [], "else"
    for number, (kind, text) in enumerate(lines, 1):
        last = found[-1] if found and kind_before == "block" == kind else None
        if kind == "section":
            missing = None
        elif kind == "needs":
            needs = text.split()
        elif last and is_open(last.text):
            last.text += "\n" + text
        elif kind == "block" and text.startswith("$ "):
            missing = missing or next((tool for tool in needs if shutil.which(tool) is None), None)
            needs = []
            found.append(Command(number, text[2:], missing))
        elif last:
            last.printed.append(text)
        # What stands in a block without a command before it is only shown.
        kind_before = kind if kind != "block" or last or text.startswith("$ ") else "else"
    return found


def run(commands, folder):
    """Gives for each command what it said and how it ended, or None where the shell ended before."""
    place = pathlib.Path(folder)
    empty, told = place / "empty", place / "told"
    empty.mkdir(), told.mkdir()
    (empty / "capcrypt").symlink_to(PROGRAM)
    (empty / "examples").symlink_to(TOP / "examples")
    for n, command in enumerate(commands):
        (told / f"{n:04}.told").write_text(command.text + "\n")
    words = ["timeout", str(SECONDS), "bash", "-c", RUNNER.format(told)]
    subprocess.run(words, cwd=empty, env=os.environ | {"LC_ALL": "C"}, check=False)
    for n in range(len(commands)):
        ended = told / f"{n:04}.ended"
        yield ((told / f"{n:04}.said").read_text(errors="replace"), int(ended.read_text())) if ended.exists() else None


def check(page):
    """Gives the numbers of commands that ran, were skipped and failed."""
    commands = commands_of((manual if page.suffix == ".1" else markdown)(page.read_text()))
    wanted = [command for command in commands if not command.missing]
    failed = 0
    for command in commands:
        if command.missing:
            print(f"skipped {page.name}:{command.line} for want of {command.missing}: {command.text.splitlines()[0]}")
    with tempfile.TemporaryDirectory() as folder:
        for command, result in zip(wanted, run(wanted, folder)):
            why = command.why_not(*result) if result else f"didn't end within the page's {SECONDS} seconds"
            if why:
                failed += 1
                print(f"{page.name}:{command.line}: {command.text}\n{why}", file=sys.stderr)
    return len(wanted), len(commands) - len(wanted), failed


def main():
    pages = [pathlib.Path(word).absolute() for word in sys.argv[1:]] or PAGES
    ran, skipped, failed = (sum(numbers) for numbers in zip(*map(check, pages)))
    print(f"{ran} commands ran, {skipped} skipped")
    sys.exit(1 if failed or not ran else 0)


main()
