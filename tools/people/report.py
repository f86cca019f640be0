#!/usr/bin/env python3
"""plir report FILE PIPELINE -o report.html: what passes made of a text, as one page that stands alone.

Before and after stand side by side, with what each run of a pass changed, the control flow as pictures where
Graphviz is there, counts, and the reasons.
"""
import argparse
import difflib
import html
import re
import shutil
import subprocess
import sys
from pathlib import Path

sys.path.insert(0, str(Path(__file__).resolve().parent))
import program
from first_run import Prefixes

STYLE = """
body { font: 15px/1.45 system-ui, sans-serif; margin: 1.5em auto; max-width: 76em; padding: 0 1em; color: #1b1f24; }
h1 { font-size: 1.5em; } h2 { font-size: 1.15em; margin-top: 2em; border-bottom: 1px solid #d0d7de; padding-bottom: .2em; }
pre, table.sides td { font: 13px/1.5 ui-monospace, monospace; }
table.sides { border-collapse: collapse; width: 100%; table-layout: fixed; }
table.sides td { vertical-align: top; padding: 0 .6em; white-space: pre-wrap; overflow-wrap: anywhere; }
table.sides col.number { width: 3.4em; } table.sides th { text-align: left; padding: 0 .6em; }
table.sides td.number { color: #6e7781; text-align: right; user-select: none; }
table.sides td.went { background: #ffebe9; } table.sides td.came { background: #dafbe1; }
table.reasons { border-collapse: collapse; } table.reasons td { padding: .15em .8em .15em 0; vertical-align: top; }
.pictures { display: flex; gap: 2em; flex-wrap: wrap; margin-bottom: 1.5em; }
.pictures figure { margin: 0; flex: 1 1 30em; min-width: 0; max-width: 100%; overflow: auto; max-height: 60em; }
.pictures figure.wide { flex-basis: 100%; } .pictures figure:not(.wide) svg { max-width: 100%; height: auto; }
figcaption { font-weight: 600; margin-bottom: .4em; }
pre { background: #f6f8fa; padding: .7em 1em; overflow-x: auto; border-radius: 6px; }
span.went { color: #b3261e; } span.came { color: #116329; }
.place { color: #6e7781; font: 13px ui-monospace, monospace; }
"""

NO_PICTURES = "The command `dot` of Graphviz isn't on the path, so its input stands here in place of pictures."

# The width of a picture, in points, from which on it takes a row of its own and keeps its size.
WIDE = 640
# The most regions that are drawn, and the lines from which on lines that stand often are no places to compare at.
REGIONS, MANY = 40, 2000


def cell(kind, line):
    return f'<td class="{kind}">{html.escape(line)}</td>' if line is not None else "<td></td>"


def sides(before, after):
    """Both texts side by side, equal lines beside one another."""
    columns = '<col class="number"><col>'
    rows = ["<tr><th></th><th>before</th><th></th><th>after</th></tr>"]
    matcher = difflib.SequenceMatcher(a=before, b=after, autojunk=len(before) > MANY)
    for tag, a, b, c, d in matcher.get_opcodes():
        for at in range(max(b - a, d - c)):
            old = before[a + at] if a + at < b else None
            new = after[c + at] if c + at < d else None
            same = tag == "equal"
            rows.append(
                f'<tr><td class="number">{a + at + 1 if old is not None else ""}</td>{cell("" if same else "went", old)}'
                f'<td class="number">{c + at + 1 if new is not None else ""}</td>{cell("" if same else "came", new)}</tr>'
            )
    return f'<table class="sides"><colgroup>{columns * 2}</colgroup>{"".join(rows)}</table>'


def picture(plir, text, title, region):
    """The control flow as SVG where Graphviz is there, and else in its language; nothing of a region without blocks."""
    short = [] if plir.can_run else ["--blocks"]
    status, dot, _ = plir.ask("dot", *short, "--region", region, text=text)
    if status or " [label=" not in dot:
        return ""
    caption = f"<figcaption>{html.escape(title)}</figcaption>"
    if shutil.which("dot"):
        drawn = subprocess.run(["dot", "-Tsvg"], input=dot, capture_output=True, text=True)
        if drawn.returncode == 0:
            svg = drawn.stdout[drawn.stdout.index("<svg") :]
            width = re.search(r'<svg width="(\d+)pt"', svg)
            wide = ' class="wide"' if width and int(width.group(1)) > WIDE else ""
            return f"<figure{wide}>{caption}{svg}</figure>"
    return f"<figure>{caption}<pre>{html.escape(dot)}</pre></figure>"


def pictures(plir, before, after, progress):
    """The pictures of regions, and a word where they are none. The outermost one of a module of MLIR has no control flow."""
    regions = re.findall(r"\{ ((?:\d+\.)+\d+) \}", plir.ask("dot", text=before)[1])
    parts = [] if shutil.which("dot") else [f"<p>{html.escape(NO_PICTURES)}</p>"]
    for region in (["0"] if plir.can_run else []) + regions[:REGIONS]:
        progress.tell(f"the control flow of region {region}")
        behind = "" if region == "0" else f", region {region}"
        shown = "".join(picture(plir, text, f"{title}{behind}", region) for text, title in ((before, "before"), (after, "after")))
        parts.append(f'<div class="pictures">{shown}</div>')
    return "".join(parts)


def reasons(lines):
    rows = []
    for line in lines:
        place, found, rest = line.partition(" ")
        if re.fullmatch(r"\d+:\d+", place):
            rows.append(f'<tr><td class="place">{place}</td><td>{html.escape(rest)}</td></tr>')
        else:
            rows.append(f"<tr><td></td><td>{html.escape(line)}</td></tr>")
    return f'<table class="reasons">{"".join(rows)}</table>'


def changes(told):
    """The lines that each run of a pass changed."""
    lines = []
    for line in told.splitlines():
        kind = None if line.startswith("--- ") else {"-": "went", "+": "came"}.get(line[:1])
        lines.append(f'<span class="{kind}">{html.escape(line)}</span>' if kind else html.escape(line))
    return f"<pre>{chr(10).join(lines) or 'nothing'}</pre>"


def changes_of(asked, plir, text):
    """What each run of a pass changed, as `opt --print-changed` tells it."""
    if plir.has_commands:
        return plir.ask("opt", "--print-changed", asked.pipeline, text=text)[2]
    lines, before, runs = [], text, Prefixes(asked, plir, text)
    for at, name in enumerate(runs.names):
        after = plir.laid_out(runs[at])
        told = list(difflib.unified_diff(before.splitlines(), after.splitlines(), n=1, lineterm=""))[2:]
        lines += [f"--- run {at + 1}, changed by {name}", *told] if told else []
        before = after
    return "\n".join(lines)


def verdict(asked, plir, text):
    """Whether the text is fit to run, or what is wrong."""
    unfit, said, wrong = plir.ask("check", text=text)
    wrong = wrong.replace("standard input", Path(asked.file).name)
    return f"<p>{html.escape(said.strip())}</p>" if not unfit else f"<pre>{html.escape(wrong)}</pre>"


def sections(asked, plir, before, after):
    """The headings of the page behind both texts, and what stands under them, as far as the program has commands for that."""
    progress = program.Progress()
    if plir.has_commands:
        yield "Control flow", pictures(plir, before, after, progress)
    progress.tell("what each run changed")
    yield "What each run changed", changes(changes_of(asked, plir, before))
    if plir.has_commands:
        progress.tell("the reasons")
        yield "Reasons", reasons(plir.ask("explain", "--missed", asked.pipeline, text=before)[1].splitlines())
        progress.tell("the counts")
        yield "Counts", f"<pre>{html.escape(plir.ask('opt', '--stats', asked.pipeline, text=before)[2])}</pre>"


def page(asked, plir, text):
    status, after, told = plir.optimised(asked.pipeline, text)
    if status:
        sys.stderr.write(told.replace("standard input", asked.file))
        return status, ""
    # All that cites lines is asked of the text as it is laid out here, so that places are those of the left column.
    before, after = (plir.laid_out(it) for it in (text, after))
    title = f"{Path(asked.file).name}: {asked.pipeline}"
    parts = [
        f"<h1>{html.escape(title)}</h1>",
        verdict(asked, plir, before) if plir.has_commands else "",
        "<h2>Before and after</h2>",
        "<p>Lines on this page are those of the left column, where the text is laid out anew.</p>" if before != text else "",
        sides(before.rstrip("\n").split("\n"), after.rstrip("\n").split("\n")),
        *(f"<h2>{heading}</h2>{part}" for heading, part in sections(asked, plir, before, after)),
    ]
    head = f'<!doctype html><html lang="en"><head><meta charset="utf-8"><title>{html.escape(title)}</title><style>{STYLE}</style></head>'
    return 0, f"{head}<body>{''.join(parts)}</body></html>\n"


def words():
    about = argparse.ArgumentParser(prog="plir report", description=__doc__.split("\n\n")[1])
    about.add_argument("file", metavar="FILE", help="the text")
    about.add_argument("pipeline", metavar="PIPELINE", help="the passes, as for `plir opt`")
    about.add_argument("-o", "--output", metavar="FILE", help="where to write; standard output, if left out")
    program.add_words(about)
    return about


def main():
    asked = words().parse_args()
    plir = program.asked_for(asked, asked.file)
    status, text = page(asked, plir, program.read(asked.file))
    if not status:
        program.write(asked.output, text)
        if plir.has_commands and not shutil.which("dot"):
            print(f"note: {NO_PICTURES}", file=sys.stderr)
    return status


if __name__ == "__main__":
    sys.exit(main())
