#!/usr/bin/env python3
"""Refuses each request for memory of a call, one by one, by the library of tools/refuse_memory.

    bindings/test/refused.py PROGRAM        a program that makes one call, of each word below, and writes its status and answer

Each run in which a request was refused has to write status 5 and nothing besides; the last one, in which none was, status 0
and the answer.
"""
import itertools
import os
import sys
import tempfile
from importlib.machinery import SourceFileLoader
from importlib.util import module_from_spec, spec_from_loader

ROOT = os.path.dirname(os.path.dirname(os.path.dirname(os.path.realpath(__file__))))
ANSWERS = {
    "once": b"0\nfunc { b0(): v0 = const 5; ret v0 }\nchanged\n",
    "once_mlir": b"""0
"builtin.module"() ({
  "func.func"() <{function_type = () -> i32, sym_name = "f"}> ({
    %2 = "arith.constant"() <{value = 2 : i32}> : () -> i32
    "func.return"(%2) : (i32) -> ()
  }) : () -> ()
}) : () -> ()
""",
}


def tool(name):
    """The tool of this name, as a module."""
    sys.dont_write_bytecode = True
    loader = SourceFileLoader(name, f"{ROOT}/tools/{name}")
    module = module_from_spec(spec_from_loader(name, loader))
    loader.exec_module(module)
    return module


def main():
    refuse_memory, wrong, total = tool("refuse_memory"), 0, 0
    with tempfile.TemporaryDirectory() as folder:
        library = refuse_memory.compiled(folder)
        for word, alone in itertools.product(ANSWERS, (True, False)):
            for found, seen in refuse_memory.refused_runs([sys.argv[1], word], b"", library, alone):
                total += seen == b"r"
                wrong += found != (0, b"5\n" if seen == b"r" else ANSWERS[word], b"")
    print(f"{total} calls with a refused request: {wrong} wrong")
    sys.exit(1 if wrong or not total else 0)


main()
