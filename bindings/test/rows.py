#!/usr/bin/env python3
"""The worked rows of the tests of the gate, for the tests of the bindings.

    bindings/test/rows.py FILE      writes them to the file, a row a line: a letter, and its fields in hexadecimal, `-` for none

They are read from the statics of the test crates, whose answers were worked by hand: texts, graphs and modules, and broken
texts and modules with the line, the column and what was to stand there; and the module that the gate runs through plir_mlir.

    o STATUS PIPELINE TEXT ANSWER       g STATUS TEXT ANSWER       f PLACE TEXT EXPECTED     where PLACE is LINE:COLUMN
    m STATUS:CHANGED PIPELINE MODULE ANSWER                        p PLACE MODULE EXPECTED
"""
import glob
import os
import re
import sys

ROOT = os.path.dirname(os.path.dirname(os.path.dirname(os.path.realpath(__file__))))
ESCAPE = re.compile(r"\\(\n\s*|u\{([0-9a-f]+)\}|x([0-9a-f]{2})|.)", re.S)
PLAIN = {"n": "\n", "t": "\t", "r": "\r", "\\": "\\", '"': '"', "0": "\0"}

ANSWERED, REFUSED, TEXT, ARGUMENTS, TOO_SMALL = range(5)


def unescaped(found):
    whole, wide, narrow = found.groups()
    if wide or narrow:
        return chr(int(wide or narrow, 16))
    return PLAIN.get(whole, "")


def read(path):
    if not os.path.exists(path):
        return ""
    with open(path, encoding="utf-8") as it:
        return it.read()


def static(word, file, name):
    """The lines of a static text in a file of this name, beside tests that call `word`."""
    for path in sorted(glob.glob(f"{ROOT}/crates/*_tests/src/**/*.rt", recursive=True)):
        if re.search(rf"\b{word}(::<[^(]*>)?\(", read(path)):
            beside = read(f"{os.path.dirname(path)}/{file}.rt")
            found = re.search(rf'static {name}: &str =\s*"((?:[^"\\]|\\.)*)";', beside, re.S)
            if found:
                # As `lines()`, which splits at line feeds alone.
                return ESCAPE.sub(unescaped, found.group(1)).removesuffix("\n").split("\n")
    return sys.exit(f"rows: no test of {word} has {name} in {file}.rt")


def with_lines(text):
    return text.replace("|", "\n").encode()


def without_name(row):
    """A row without the name before ` -- `."""
    return row.split(" -- ", 1)[1]


def optimised():
    """Status, pipeline, text and answer of each row."""
    for row in static("plir_run", "texts", "ROWS"):
        text, answer = without_name(row).split(" => ")
        yield ANSWERED, b"sccp", text.encode(), with_lines(answer)
    for row in static("plir_run", "texts", "LISTS"):
        pipeline, rest = without_name(row).split(" :: ")
        text, answer = rest.split(" => ")
        yield ANSWERED, pipeline.encode(), text.encode(), with_lines(answer)
    for row in static("plir_run", "texts", "REFUSED"):
        pipeline, rest = without_name(row).split(" :: ")
        text, told = rest.split(" => ")
        yield REFUSED if told.startswith("refused") else TEXT, pipeline.encode(), text.encode(), b""
    for row in static("plir_run", "texts", "UNREADABLE"):
        yield TEXT, b"sccp", without_name(row).encode(), b""


def graphs():
    """Status, text and answer of each graph."""
    for row in static("plir_run", "graphs", "GRAPHS"):
        text, answer = without_name(row).split(" => ")
        yield ANSWERED, with_lines(text), with_lines(answer)
    for row in static("plir_run", "graphs", "UNREADABLE"):
        yield TEXT, with_lines(without_name(row)), b""


def faults():
    """Line, column, text and what was to stand there, of each broken text."""
    for row in static("find_text_fault", "faults", "BROKEN"):
        text, told = row.split(" => ")
        place, expected = told.split(" ", 1)
        line, column = place.split(":")
        yield int(line), int(column), with_lines(text), expected.encode()


def stored(name):
    """What is in this file of crates/plir_mlir."""
    with open(f"{ROOT}/crates/plir_mlir/{name}", "rb") as it:
        return it.read()


def modules():
    """Status, whether it changed, pipeline, module and answer of each module."""
    yield ANSWERED, 1, stored("args").strip(), stored("stdin"), stored("stdout")
    for row in static("print_module", "printed", "PRINTED"):
        text, answer = without_name(row).split(" => ")
        yield ANSWERED, 0, b"", with_lines(text), with_lines(answer)
    for row in static("optimise_module_into", "modules", "OPTIMISED"):
        pipeline, text, rest = without_name(row).split(" :: ")
        changed, status, length, left = rest.split(" => ")[1].split(" ", 3)
        if int(status) != TOO_SMALL:
            yield int(status), int(changed), pipeline.encode(), with_lines(text), with_lines(left[:int(length)])


def module_faults():
    """Line, column, module and what was to stand there, of each broken module."""
    for row in static("read_module", "broken", "BROKEN"):
        text, told = without_name(row).split(" => ")
        place, expected = told.split(" ", 1)
        line, column = place.split(":")
        yield int(line), int(column), with_lines(text), expected.encode()


def written(letter, word, *fields):
    return " ".join([letter, str(word)] + [field.hex() or "-" for field in fields]) + "\n"


def main():
    with open(sys.argv[1], "w", encoding="ascii") as it:
        it.writelines(written("o", *row) for row in optimised())
        it.writelines(written("g", *row) for row in graphs())
        it.writelines(written("f", f"{line}:{column}", *rest) for line, column, *rest in faults())
        it.writelines(written("m", f"{status}:{changed}", *rest) for status, changed, *rest in modules())
        it.writelines(written("p", f"{line}:{column}", *rest) for line, column, *rest in module_faults())


if __name__ == "__main__":
    main()
