#!/usr/bin/env python3
"""Writes completions for bash, zsh and fish and manual pages, from what programs say of themselves.

    tools/people/completions.py FOLDER

writes plir.bash, _plir, plir.fish, plir.1 and plir_opt.1 into the folder, and plir_mlir.1 and plir_llvm.1 where the environment names these programs
by PLIR_MLIR_PROGRAM, PLIR_LLVM_PROGRAM.
"""
import argparse
import os
import re
import sys
from pathlib import Path
from typing import List, NamedTuple, Optional

sys.path.insert(0, str(Path(__file__).resolve().parent))
import check_lines
import first_run
import program
import reduce
import report

# the commands that stand beside the program, and what they do
BESIDE = {
    "reduce": (reduce, "Makes a text as small as can be that keeps what it does"),
    "bisect": (first_run, "Finds the first run of a pass after which something is another"),
    "test": (check_lines, "Runs the RUN lines of texts, and looks for their CHECK lines"),
    "report": (report, "Writes a page that shows what passes made of a text"),
}
OPTION = re.compile(r"^  (?:(-\w), |    )(--[\w-]+)(?: <([^>]+)>)?(?:  +(.*))?$")
OPERAND = re.compile(r"^  ([<\[][A-Z][^>\]]*[>\]](?:\.\.\.)?)(?:  +(.*))?$")
PLIR_OPT = """.TH PLIR_OPT 1
.SH NAME
plir_opt \\- optimises a text of operations
.SH SYNOPSIS
.B plir_opt
.I PIPELINE
.br
.B plir_opt graph
.SH DESCRIPTION
Reads a text from standard input, runs the passes of the pipeline, and writes the text that they leave in one line, and a line
.B changed
or
.BR unchanged .
With
.B graph
it reads a graph, a line for each node with its successors, and writes its orders, components and kinds of edges.
.PP
The pipeline is a list of
.BR sccp ", " dce " and " simplify\\-cfg ,
joined by commas;
.BI nested: LIST
runs it on each operation directly inside,
.BI repeat: N : LIST
until nothing changes, at most N times, from 1 to 64. The other passes are those of
.BR plir (1).
.SH EXIT STATUS
0: the whole answer was written. 1: memory was refused, or a pass gave up. 2: the words or the text can't be used, or a stream failed.
.SH SEE ALSO
.BR plir (1),
.BR plir_mlir (1)
"""


class Option(NamedTuple):
    short: Optional[str]
    long: str
    value: Optional[str]
    about: str


class Command(NamedTuple):
    about: str
    operands: List[tuple]  # each with its name and what it is
    options: List[Option]


def commands_of(text):
    """The commands of the program with what they do, from its help."""
    found = {}
    for line in text.split("Commands:\n")[1].split("\n\n")[0].splitlines():
        if line.startswith("  ") and not line.startswith("   "):
            name, about = line.split(None, 1)
            found[name] = about
        elif found:
            found[name] += " " + line.strip()
    found.pop("help", None)
    return found


def described(text):
    """Pairs of a match and all that the help says of it, of operands and of options."""
    found = []
    for line in text.splitlines():
        match = OPTION.match(line) or OPERAND.match(line)
        if match:
            found.append([match, (match.group(match.lastindex) or "").strip() if match.re.groups == (match.lastindex or 0) else ""])
        elif found and line.startswith("          ") and line.strip():
            found[-1][1] = f"{found[-1][1]} {line.strip()}".strip()
    return found


def command_of_help(about, text):
    """A command of the program, from its help."""
    parts = described(text)
    operands = [(match.group(1).strip("<>[]."), told) for match, told in parts if match.re is OPERAND]
    options = [Option(*match.groups()[:3], told) for match, told in parts if match.re is OPTION]
    return Command(about, operands, options)


def command_of_parser(about, parser):
    """A command beside the program, from the parser of its words."""
    operands, options = [], []
    for action in parser._actions:
        told = (action.help or "").replace("%%", "%")
        if not action.option_strings:
            operands.append((action.metavar or action.dest, told))
        elif action.dest != "help":
            long = [it for it in action.option_strings if it.startswith("--")]
            short = [it for it in action.option_strings if not it.startswith("--")]
            options.append(Option(short[0] if short else None, long[0], action.metavar if action.nargs != 0 else None, told))
    return Command(about, operands, options)


def shape(name, command):
    """What is completed behind the words of a command: whether options or the first operand are pipelines."""
    lists = [option.long for option in command.options if option.value == "PIPELINE"]
    first = [name for name, _ in command.operands][:2]
    return lists, "PIPELINE" in first


def quoted(text):
    return text.replace("'", "'\\''")


def bash(commands, passes):
    cases = []
    for name, command in commands.items():
        lists, takes = shape(name, command)
        cases.append(f"    {name}) words=\"{' '.join(it.long for it in command.options)}\" lists=\"{' '.join(lists)}\" takes={'yes' if takes else ''} ;;")
    body = "\n".join(cases)
    return f"""_plir() {{
    local word=${{COMP_WORDS[COMP_CWORD]}} before=${{COMP_WORDS[COMP_CWORD - 1]}} words= lists= takes= head
    COMPREPLY=()
    if [ "$COMP_CWORD" -eq 1 ]; then
        COMPREPLY=($(compgen -W "{' '.join(commands)} --help --version" -- "$word"))
        return
    fi
    case ${{COMP_WORDS[1]}} in
{body}
    esac
    if [[ $word == -* ]]; then
        COMPREPLY=($(compgen -W "$words" -- "$word"))
    elif [[ " $lists " == *" $before "* || -n $takes ]]; then
        # the pass behind the last comma or bracket of a pipeline
        head=${{word%"${{word##*[,(:]}}"}}
        COMPREPLY=($(compgen -P "$head" -W "{' '.join(passes)}" -- "${{word##*[,(:]}}") $(compgen -f -- "$word"))
    else
        COMPREPLY=($(compgen -f -- "$word"))
    fi
}}
complete -o filenames -F _plir plir
"""


def zsh(commands, passes):
    listed = "\n".join(f"    '{name}:{quoted(command.about)}'" for name, command in commands.items())
    cases = []
    for name, command in commands.items():
        lines = []
        for option in command.options:
            told = quoted(option.about.replace("[", "(").replace("]", ")").replace(":", ";")[:90])
            takes = f":{option.value}:{'_plir_passes' if option.value == 'PIPELINE' else '_files'}" if option.value else ""
            lines.append(f"        '{option.long}[{told}]{takes}'")
        for at, (operand, _) in enumerate(command.operands, 1):
            lines.append(f"        '{at}:{operand}:{'_plir_passes' if operand == 'PIPELINE' else '_files'}'")
        cases.append(f"    {name}) _arguments \\\n" + " \\\n".join(lines) + " \\\n        '*:file:_files' ;;")
    body = "\n".join(cases)
    return f"""#compdef plir
_plir_passes() {{
    _values -s , pass {' '.join(passes)}
}}
local -a commands
commands=(
{listed}
)
if (( CURRENT == 2 )); then
    _describe command commands
    return
fi
local command=$words[2]
shift words
(( CURRENT-- ))
case $command in
{body}
esac
"""


def fish(commands, passes):
    lines = ["complete -c plir -f"]
    for name, command in commands.items():
        lines.append(f"complete -c plir -n __fish_use_subcommand -a {name} -d '{quoted(command.about)}'")
        seen = f"'__fish_seen_subcommand_from {name}'"
        lines.append(f"complete -c plir -n {seen} -F")
        if shape(name, command)[1]:
            lines.append(f"complete -c plir -n {seen} -a '{' '.join(passes)}'")
        for option in command.options:
            short = f" -s {option.short[1:]}" if option.short else ""
            takes = f" -x -a '{' '.join(passes)}'" if option.value == "PIPELINE" else " -r" if option.value else ""
            lines.append(f"complete -c plir -n {seen}{short} -l {option.long[2:]}{takes} -d '{quoted(option.about[:90])}'")
    return "\n".join(lines) + "\n"


def roff(text):
    text = text.replace("\\", "\\e").replace("-", "\\-")
    return re.sub(r"^([.'])", r"\\&\1", text, flags=re.M)


def page_of(command):
    """The operands and options of a command, as a part of a manual page."""
    lines = []
    for name, about in command.operands:
        lines += [".TP", f"\\fI{roff(name)}\\fR", roff(about) or "."]
    for option in command.options:
        head = ", ".join(f"\\fB{roff(it)}\\fR" for it in (option.short, option.long) if it)
        lines += [".TP", head + (f" \\fI{roff(option.value)}\\fR" if option.value else ""), roff(option.about)]
    return lines


def used(command):
    """The operands of a command in a synopsis."""
    return "".join(f" \\fI{roff(name)}\\fR" for name, _ in command.operands)


def manual(about, commands):
    lines = [".TH PLIR 1", ".SH NAME", f"plir \\- {roff(about)}", ".SH SYNOPSIS"]
    for name, command in commands.items():
        lines += [f".B plir {roff(name)}", f"[\\fIOPTION\\fR]..{used(command)}", ".br"]
    for name, command in commands.items():
        lines += [f".SH {name.upper()}", roff(command.about.rstrip(".")) + ".", *page_of(command)]
    lines += [".SH EXIT STATUS", STATUSES, ".SH SEE ALSO", ".BR plir_opt (1),", ".BR plir_mlir (1),", ".BR plir_llvm (1)", ".br", "docs/USING.md of the sources"]
    return "\n".join(lines) + "\n"


STATUSES = (
    "0: standard output has the answer. 1: memory was refused, or a pass gave up. 2: the arguments, a file or a text can't be used. "
    "3: what was asked for isn't so, as that a text is fit to run."
)


# The programs for modules: what each optimises, and its page.
OF_MODULES = {
    "plir_mlir": ("a module of MLIR in the generic form", "docs/MLIR.md"),
    "plir_llvm": ("a module in LLVM's textual IR", "docs/LLVM.md"),
}


def manual_of_modules(name, text):
    about, page = OF_MODULES[name]
    command = command_of_help("", text)
    lines = [f".TH {name.upper()} 1", ".SH NAME", f"{name} \\- optimises {about}", ".SH SYNOPSIS", f".B {name}"]
    lines += [f"[\\fIOPTION\\fR]..{used(command)}", ".SH DESCRIPTION", *page_of(command)]
    return "\n".join([*lines, ".SH SEE ALSO", ".BR plir (1)", ".br", f"{page} of the sources"]) + "\n"


def main():
    asks = argparse.ArgumentParser(description=__doc__, formatter_class=argparse.RawDescriptionHelpFormatter)
    asks.add_argument("folder", metavar="FOLDER", type=Path)
    folder = asks.parse_args().folder
    folder.mkdir(parents=True, exist_ok=True)
    plir = program.Plir()
    wide = {"COLUMNS": "100000"}
    top = plir.run("--help", env=wide)[1]
    commands = {name: command_of_help(about, plir.run(name, "--help", env=wide)[1]) for name, about in commands_of(top).items()}
    commands.update((name, command_of_parser(about, module.words())) for name, (module, about) in BESIDE.items())
    passes = [line.split()[0] for line in plir.run("opt", "--list-passes")[1].splitlines()]
    made = {
        "plir.bash": bash(commands, passes),
        "_plir": zsh(commands, passes),
        "plir.fish": fish(commands, passes),
        "plir.1": manual(top.split("\n")[0], commands),
        "plir_opt.1": PLIR_OPT,
    }
    for name in OF_MODULES:
        if os.path.exists(os.environ.get(f"{name.upper()}_PROGRAM", "")):
            made[f"{name}.1"] = manual_of_modules(name, program.Plir(name).run("--help", env=wide)[1])
    for name, text in made.items():
        (folder / name).write_text(text)


if __name__ == "__main__":
    main()
