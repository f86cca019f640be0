"""The programs for texts, as the commands beside `plir` call them."""
import functools
import os
import re
import subprocess
import sys
import tempfile
import time
from pathlib import Path

import generic
import notation

ROOT = Path(os.path.realpath(__file__)).parent.parent.parent


@functools.cache
def path(name="plir"):
    """Where the program stands; it is built, unproved, where none is there. The environment names another `plir` by PLIR_PROGRAM."""
    given = os.environ.get(f"{name.upper()}_PROGRAM")
    if given:
        return given
    found = subprocess.run([ROOT / "tools/run_program", "--path", name], stdout=subprocess.PIPE, text=True)
    if found.returncode:
        raise SystemExit(found.returncode)
    return found.stdout.strip()


class Plir:
    """A program with the commands of `plir`, for texts of a dialect."""

    def __init__(self, name="plir", dialect="bench", at=None):
        self.path, self.name, self.dialect = at or path(name), Path(at or name).name, dialect
        self.texts = generic if dialect == "mlir" else notation
        self.can_run, self.has_commands = dialect == "bench", True

    def run(self, *words, text=None, env=None):
        """Status, standard output and standard error of these words, with this text on standard input and this added to the environment."""
        how = {"capture_output": True, "text": True, "errors": "replace", "env": {**os.environ, **(env or {})}}
        ran = subprocess.run([self.path, *words], input=text, **how)
        return ran.returncode, ran.stdout, ran.stderr

    def ask(self, command, *words, text):
        """The same for a command on a text."""
        return self.run(command, *words, *(["--dialect", "mlir"] if self.dialect == "mlir" else []), text=text)

    def check(self, text):
        """0 for a text that is fit to run, 3 for another that can be read, and else 2; and what is told of it."""
        status, _, told = self.ask("check", text=text)
        return status, told

    def read(self, text):
        """The operation of a text."""
        try:
            return self.texts.read(text)
        except (ValueError, IndexError, RecursionError) as error:
            return fail(f"the commands beside `plir` can't read this text: {error}")

    def laid_out(self, text):
        """The text with each operation on a line of its own."""
        return self.texts.written(self.read(text))

    def optimised(self, pipeline, text):
        """Status, the text that passes leave, and standard error."""
        return self.ask("opt", "--pretty", "--keep-names", pipeline, text=text)


class Optimiser(Plir):
    """A program of a dialect that takes a list of passes and a text on standard input."""

    def __init__(self, at):
        super().__init__(dialect="other", at=at)
        self.has_commands = False

    def check(self, text):
        """0 for a text that can be read, else 2; and what is told of it."""
        status, _, told = self.run("dce", text=text)
        return 2 if status == 2 else 0, told

    def optimised(self, pipeline, text):
        status, answer, told = self.run(pipeline.replace(" ", ""), text=text)
        return status, re.sub(r"(un)?changed\n\Z", "", answer), told


def add_words(about):
    """The words that say what texts are written in."""
    about.add_argument("--dialect", metavar="NAME", choices=("bench", "mlir"), help="as for `plir check`: `bench` or `mlir`")
    about.add_argument("--program", metavar="FILE", help="a program of another dialect, as `arithmetic_opt`, in place of `plir`")


def asked_for(asked, file):
    """The program for the texts that the words ask for, of which this file is one."""
    return program_for(asked.dialect or ("mlir" if file.endswith(".mlir") else "bench"), asked.program)


@functools.cache
def program_for(dialect, at):
    """The program in the file, or `plir`, for texts of the dialect."""
    if not at:
        return Plir(dialect=dialect)
    at = os.path.realpath(at) if os.path.exists(at) else at
    try:
        has_commands = Plir(at=at).run("check", "--help")[0] == 0
    except OSError as error:
        return fail(f"cannot start {at}: {error.strerror}")
    return Plir(dialect=dialect, at=at) if has_commands else Optimiser(at)


class Progress:
    """Says on standard error how far it is, at most once a second."""

    def __init__(self):
        self.told = time.monotonic()

    def tell(self, text):
        if time.monotonic() - self.told > 1:
            self.told = time.monotonic()
            print(text, file=sys.stderr, flush=True)


def fail(message):
    """Ends the program with status 2, for this reason."""
    print(f"error: {message}", file=sys.stderr)
    raise SystemExit(2)


def status_of(command, text, name):
    """The status of a command that gets the file of the text as its last word, or for each word `{}`."""
    with tempfile.TemporaryDirectory(prefix="plir-") as folder:
        file = f"{folder}/{Path(name).name}"
        Path(file).write_text(text)
        words = [file if word == "{}" else word for word in command]
        if "{}" not in command:
            words.append(file)
        try:
            return subprocess.run(words, stdout=subprocess.DEVNULL, stderr=subprocess.DEVNULL).returncode
        except OSError as error:
            return fail(f"cannot start {command[0]}: {error.strerror}")


def read(name):
    """The text of a file, or of standard input."""
    try:
        return sys.stdin.read() if name == "-" else Path(name).read_text()
    except (OSError, UnicodeDecodeError) as error:
        return fail(f"cannot read {name}: {getattr(error, 'strerror', None) or error}")


def write(name, text):
    """Writes the whole text to the file, beside it first, or to standard output. Where that fails the file is as before, and nothing is
    left beside it."""
    if name in (None, "-"):
        sys.stdout.write(text)
        return
    if not name:
        fail("cannot write '': a file needs a name")
    if os.path.isdir(name):
        fail(f"cannot write {name}: it is a folder")
    try:
        if os.path.exists(name) and not os.path.isfile(name):
            Path(name).write_text(text)
            return
        replace(os.path.realpath(name), text)
    except OSError as error:
        fail(f"cannot write {name}: {error.strerror}")


def replace(target, text):
    """Puts the text in the place of the file, with its permissions."""
    beside = f"{target}.{os.getpid()}.new"
    try:
        with open(beside, "x") as file:
            if os.path.exists(target):
                os.fchmod(file.fileno(), os.stat(target).st_mode & 0o7777)
            file.write(text)
            file.flush()
            os.fsync(file.fileno())
        os.replace(beside, target)
    except OSError:
        if os.path.exists(beside):
            os.unlink(beside)
        raise
