#!/usr/bin/env python3
"""plir test FILE..: runs the commands of texts' RUN lines, and looks for their CHECK lines in what is written.

A line `// RUN: opt --pretty sccp,dce %s` in a text runs `plir` on it, where `%s` is the file, with blanks for its comments, which begin
with `//`, and `< %s` gives it on standard input; `// RUN: not check %s` wants a status other than 0, and what comes behind `|` is passed
over. For another program the line begins with its name. What is written, standard output and then standard error, is to have the lines
that follow, in order:

  CHECK: TEXT         somewhere behind what the line before found
  CHECK-NEXT: TEXT    on the next line
  CHECK-SAME: TEXT    on the same line
  CHECK-NOT: TEXT     not before what the next line finds, nor to the end
  CHECK-LABEL: TEXT   as CHECK; what stands between two of them is looked at by itself
  CHECK-EMPTY:        the next line is empty

In TEXT `{{..}}` is a regular expression, `[[NAME:..]]` one whose match is kept, and `[[NAME]]` what was kept; blanks in a row are as
one blank.
"""
import argparse
import re
import shlex
import sys
import tempfile
from pathlib import Path

sys.path.insert(0, str(Path(__file__).resolve().parent))
import program

PART = re.compile(r"\{\{(.*?)\}\}|\[\[([A-Za-z_]\w*):(.*?)\]\]|\[\[([A-Za-z_]\w*)\]\]")


class Check:
    def __init__(self, kind, text, line, column):
        self.kind, self.text, self.line, self.column = kind, text, line, column

    def pattern(self, known):
        """A regular expression for the text, and the names that it keeps."""
        parts, at = [], 0
        for found in PART.finditer(self.text):
            parts.append(literal(self.text[at : found.start()]))
            expression, name, kept, used = found.groups()
            if expression is not None:
                parts.append(f"(?:{expression})")
            elif name is not None:
                parts.append(f"(?P<{name}>{kept})")
            elif f"(?P<{used}>" in "".join(parts):
                parts.append(f"(?P={used})")
            else:
                parts.append(re.escape(known.get(used, f"[[{used}]]")))
            at = found.end()
        parts.append(literal(self.text[at:]))
        return re.compile("".join(parts))


def literal(text):
    return r"[ \t]+".join(re.escape(part) for part in re.split(r"[ \t]+", text))


def lines_of(text, prefix):
    """The commands and the checks of a text."""
    runs, checks = [], []
    wanted = re.compile(rf"//.*?\b{re.escape(prefix)}(-NEXT|-SAME|-NOT|-LABEL|-EMPTY)?:[ \t]*(.*?)[ \t]*$")
    for number, line in enumerate(text.split("\n"), 1):
        if found := re.search(r"//\s*RUN:\s*(.*)$", line):
            runs.append((found.group(1), number))
        elif found := wanted.search(line.rstrip("\r")):
            checks.append(Check(found.group(1) or "", found.group(2), number, found.start(2) + 1))
    return runs, checks


class Failed(Exception):
    def __init__(self, check, why, at):
        self.check, self.why, self.at = check, why, at


def end_of_line(output, at):
    end = output.find("\n", at)
    return len(output) if end < 0 else end


def find(check, output, at, known):
    """Where the check is found from there on."""
    pattern = check.pattern(known)
    if check.kind in ("", "-LABEL"):
        found = pattern.search(output, at)
        if not found:
            raise Failed(check, "isn't found", at)
        return found
    if check.kind == "-SAME":
        found = pattern.search(output, at, end_of_line(output, at))
        if not found:
            raise Failed(check, "isn't on the same line", at)
        return found
    start = end_of_line(output, at) + 1
    end = end_of_line(output, start)
    if check.kind == "-EMPTY":
        if start > len(output) or output[start:end].strip():
            raise Failed(check, "the next line isn't empty", at)
        return re.compile("").match(output, end)
    found = pattern.search(output, start, end) if start <= len(output) else None
    if not found:
        raise Failed(check, "isn't on the next line", at)
    return found


def look(checks, output, known):
    """Looks for the checks in a part of what was written."""
    at, nots = 0, []
    for check in checks:
        if check.kind == "-NOT":
            nots.append(check)
            continue
        found = find(check, output, at, known)
        refuse(nots, output, at, found.start(), known)
        nots, at = [], found.end()
        known.update(found.groupdict())
    refuse(nots, output, at, len(output), known)


def refuse(nots, output, start, end, known):
    for check in nots:
        found = check.pattern(known).search(output, start, end)
        if found:
            raise Failed(check, "is found", found.start())


def blocks(checks, output):
    """The checks by labels, each with the part of what was written that is its own."""
    known, groups, at, found_at = {}, [[]], 0, [0]
    for check in checks:
        if check.kind == "-LABEL":
            found = find(check, output, at, known)
            found_at.append(found.start())
            groups.append([])
            at = found.end()
        groups[-1].append(check)
    for number, group in enumerate(groups):
        end = found_at[number + 1] if number + 1 < len(found_at) else len(output)
        yield group, output[found_at[number] : end]


def words_of(run, name, plir):
    """The words of the program, the file on its standard input, if there is one, and whether it is to fail."""
    words = shlex.split(run.split("|")[0])
    fails = words[:1] == ["not"]
    words = words[1:] if fails else words
    words = words[1:] if not plir.has_commands or words[:1] in (["plir"], ["./plir"], [plir.name]) else words
    words = [name if word == "%s" else word for word in words]
    at = words.index("<") if "<" in words[:-1] else len(words)
    return words[:at] + words[at + 2 :], (words[at + 1 : at + 2] or [None])[0], fails


def shown(name, text, check, why, output, at):
    line = text.split("\n")[check.line - 1]
    start = output.rfind("\n", 0, at) + 1
    number = output.count("\n", 0, at) + 1
    label = f"// {'CHECK'}{check.kind}"
    return (
        f"error: {label.removeprefix('// ')}: {why}\n --> {name}:{check.line}:{check.column}\n  |\n"
        f"{check.line} | {line}\nnote: it was looked for from line {number} of what was written on:\n"
        + "".join(f"    {it}\n" for it in output[start:].split("\n")[:5])
    )


def test(plir, name, prefix):
    """What is wrong with the text's lines; nothing where all is right."""
    text = Path(name).read_text()
    runs, checks = lines_of(text, prefix)
    if not runs:
        return f"error: {name} has no line `// RUN: ..`\n"
    if not checks and not any(words_of(run, name, plir)[2] for run, _ in runs):
        return f"error: {name} has no line `// {prefix}: ..`, so it tests nothing but statuses\n"
    with tempfile.TemporaryDirectory(prefix="plir-") as folder:
        file = f"{folder}/{Path(name).name}"
        Path(file).write_text(plir.texts.without_comments(text))
        return tested(plir, name, file, text, runs, checks)


def tested(plir, name, file, text, runs, checks):
    """What is wrong with the lines of the text that stands in the file without its comments."""
    for run, line in runs:
        words, given, fails = words_of(run, file, plir)
        status, output, told = plir.run(*words, text=Path(given).read_text() if given else None)
        if (status != 0) != fails:
            return f"error: `{plir.name} {' '.join(words)}` ended with {status}\n --> {name}:{line}:1\n{told}"
        written = output + told
        try:
            for group, part in blocks(checks, written):
                look(group, part, {})
        except Failed as failed:
            return shown(name, text, failed.check, failed.why, written, failed.at)
        except re.error as error:
            return f"error: {name}: a regular expression can't be read: {error}\n"
    return ""


def words():
    about = argparse.ArgumentParser(
        prog="plir test", description=__doc__, formatter_class=argparse.RawDescriptionHelpFormatter
    )
    about.add_argument("files", metavar="FILE", nargs="+", help="a text with RUN and CHECK lines")
    about.add_argument("--check-prefix", metavar="WORD", default="CHECK", help="what stands for CHECK")
    program.add_words(about)
    return about


def tried(plir, name, prefix):
    """What is wrong with the file, also where it can't be read."""
    try:
        return test(plir, name, prefix)
    except (OSError, UnicodeDecodeError) as error:
        return f"error: cannot read {name}: {getattr(error, 'strerror', None) or error}\n"


def main():
    asked = words().parse_args()
    failed, progress = 0, program.Progress()
    for number, name in enumerate(asked.files, 1):
        progress.tell(f"file {number} of {len(asked.files)}, {name}")
        wrong = tried(program.asked_for(asked, name), name, asked.check_prefix)
        print(f"{'FAIL' if wrong else 'PASS'}: {name}", flush=True)
        sys.stderr.write(wrong)
        failed += bool(wrong)
    print(f"{len(asked.files) - failed} passed, {failed} failed")
    return 3 if failed else 0


if __name__ == "__main__":
    sys.exit(main())
