#!/usr/bin/env python3
"""Tests of the module for Python: the worked rows, edges, and threads. `RACHONPAS_LIBRARY` names another library."""
import doctest
import os
import subprocess
import sys
import threading
import unittest

HERE = os.path.dirname(os.path.realpath(__file__))
sys.path[:0] = [f"{HERE}/../python", HERE]

import rachonpas  # noqa: E402
import rows  # noqa: E402

BROKEN = "func {\n  ret }"
SUM = "func { b0(): a = const 1; b = const 2; c = add a b; ret c }"
MODULE = """"m"() ({
  %0 = "arith.constant"() <{value = 1 : i32}> : () -> i32
  %1 = "arith.addi"(%0, %0) <{overflowFlags = #arith.overflow<none>}> : (i32, i32) -> i32
  "use"(%1) : (i32) -> ()
}) : () -> ()
"""
TWO = """"m"() ({
  %2 = "arith.constant"() <{value = 2 : i32}> : () -> i32
  "use"(%2) : (i32) -> ()
}) : () -> ()
"""


def raised(pipeline, text):
    """The kind of the error that is raised, or None."""
    try:
        rachonpas.optimise(pipeline, text)
    except rachonpas.Error as error:
        return type(error)
    return None


class Rows(unittest.TestCase):
    def test_texts(self):
        kinds = {rows.REFUSED: rachonpas.RefusedError, rows.TEXT: rachonpas.TextError}
        for status, pipeline, text, answer in rows.optimised():
            if status == rows.ANSWERED:
                left, word = answer.decode().splitlines()
                wanted = rachonpas.Answer(left, word == "changed")
                self.assertEqual(rachonpas.optimise(pipeline.decode(), text), wanted)
                self.assertEqual(rachonpas.optimise(pipeline.decode(), text.decode()), wanted)
            else:
                self.assertEqual(raised(pipeline.decode(), text), kinds[status], text)

    def test_graphs(self):
        for status, text, answer in rows.graphs():
            if status == rows.ANSWERED:
                self.assertEqual(rachonpas.describe_graph(text), answer.decode())
            else:
                self.assertRaises(rachonpas.TextError, rachonpas.describe_graph, text)

    def test_modules(self):
        kinds = {rows.REFUSED: rachonpas.RefusedError, rows.TEXT: rachonpas.TextError, rows.ARGUMENTS: rachonpas.PipelineError}
        for status, changed, pipeline, text, answer in rows.modules():
            if status == rows.ANSWERED:
                wanted = rachonpas.Answer(answer.decode(), changed == 1)
                self.assertEqual(rachonpas.optimise_mlir(pipeline.decode(), text), wanted)
            else:
                self.assertRaises(kinds[status], rachonpas.optimise_mlir, pipeline.decode(), text)

    def expect_faults(self, broken, find_fault, optimise):
        for line, column, text, expected in broken:
            fault = find_fault(text)
            self.assertEqual((fault.line, fault.column, fault.expected), (line, column, expected.decode()))
            self.assertLessEqual(fault.start + fault.length, len(text))
            with self.assertRaises(rachonpas.TextError) as found:
                optimise("dce", text)
            self.assertEqual(found.exception.fault, fault)

    def test_faults(self):
        self.expect_faults(rows.faults(), rachonpas.find_fault, rachonpas.optimise)
        self.expect_faults(rows.module_faults(), rachonpas.find_fault_mlir, rachonpas.optimise_mlir)


class Edges(unittest.TestCase):
    def test_texts_that_are_none(self):
        self.assertEqual(raised("sccp", ""), rachonpas.TextError)
        self.assertEqual(raised("sccp", bytes(range(256))), rachonpas.TextError)
        self.assertEqual(raised("sccp", "func { b0(): ret }\0"), rachonpas.TextError)
        self.assertIsNone(rachonpas.find_fault(SUM))

    def test_pipelines_that_are_none(self):
        for pipeline in ("", "graph", "cse", "canonicalize", "sccp,", "repeat:0:dce", "repeat:65:dce", "nested:", "\u00e4"):
            self.assertEqual(raised(pipeline, "none"), rachonpas.PipelineError)

    def test_long_texts(self):
        self.assertEqual(rachonpas.optimise("sccp,dce", SUM.ljust(rachonpas.MAX_TEXT)).text, "func { b0(): v0 = const 3; ret v0 }")
        self.assertEqual(raised("sccp", SUM.ljust(rachonpas.MAX_TEXT + 1)), rachonpas.TextError)

    def test_an_answer_longer_than_the_first_buffer(self):
        answer = rachonpas.optimise("repeat:64:sccp", "func{b0():a=const 1;b=add a a;ret b}").text
        self.assertEqual(answer.count("const 2"), 64)

    def test_modules_that_are_none(self):
        for module in ("", bytes(range(256)), MODULE + "\0", "m"):
            self.assertRaises(rachonpas.TextError, rachonpas.optimise_mlir, "dce", module)
        for pipeline in ("licm", "sccp,", "repeat:0:dce", "repeat:65:dce", "nested:", "\u00e4"):
            self.assertRaises(rachonpas.PipelineError, rachonpas.optimise_mlir, pipeline, "none")
        self.assertIsNone(rachonpas.find_fault_mlir(MODULE))

    def test_long_modules(self):
        self.assertEqual(rachonpas.optimise_mlir("sccp,dce", MODULE.ljust(1 << 20)), rachonpas.Answer(TWO, True))
        self.assertEqual(rachonpas.optimise_mlir("repeat:64:sccp", MODULE).text.count("value = 2"), 64)

    def test_modules_that_are_no_text(self):
        module = b'"m"() {a = "\xff"} : () -> ()\n'
        answer = rachonpas.optimise_mlir("dce", module)
        self.assertEqual(answer.text.encode(errors="surrogateescape"), module)
        self.assertEqual(rachonpas.optimise_mlir("dce", answer.text), answer)

    def test_texts_that_are_neither_str_nor_bytes(self):
        for text in (5, None, ["func"]):
            self.assertRaises(TypeError, rachonpas.optimise, "dce", text)
            self.assertRaises(TypeError, rachonpas.find_fault_mlir, text)
        self.assertEqual(rachonpas.optimise("sccp,dce", bytearray(SUM.encode())), rachonpas.optimise("sccp,dce", SUM))

    def test_a_library_that_is_missing(self):
        for library in ("/nowhere/librachonpas.so", rachonpas.__file__):
            env = {**os.environ, "RACHONPAS_LIBRARY": library, "PYTHONPATH": f"{HERE}/../python"}
            ran = subprocess.run([sys.executable, "-c", "import rachonpas"], env=env, capture_output=True, text=True)
            self.assertIn("ImportError: rachonpas: the shared library isn't there", ran.stderr)
            self.assertIn("make -C bindings/c", ran.stderr)

    def test_the_version(self):
        with open(f"{HERE}/../../VERSION", encoding="ascii") as it:
            self.assertEqual(rachonpas.__version__, it.read().strip())

    def test_errors(self):
        error = rachonpas.TextError(rachonpas.find_fault(BROKEN))
        self.assertEqual(str(error), "unreadable text: 2:3: expected a block, as each `func` and `scope` has one")
        self.assertTrue(issubclass(rachonpas.WantOfMemory, MemoryError))


class Threads(unittest.TestCase):
    def test_two_at_once(self):
        found = [None, None]

        def call(at):
            found[at] = [rachonpas.optimise("sccp,dce", SUM).text for _ in range(2000)]
            found[at] += [rachonpas.optimise_mlir("sccp,dce", MODULE).text for _ in range(2000)]

        threads = [threading.Thread(target=call, args=(at,)) for at in range(2)]
        for thread in threads:
            thread.start()
        for thread in threads:
            thread.join()
        self.assertEqual(found, [["func { b0(): v0 = const 3; ret v0 }"] * 2000 + [TWO] * 2000] * 2)


def load_tests(_loader, tests, _pattern):
    tests.addTests(doctest.DocTestSuite(rachonpas))
    return tests


if __name__ == "__main__":
    unittest.main()
