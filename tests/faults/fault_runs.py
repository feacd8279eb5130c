"""Runs a program with calls that fail: what run_faults.py stands on. fail.c says what a setting does."""
import collections
import os
import shutil
import struct
import subprocess
import threading

HERE = os.path.dirname(os.path.abspath(__file__))
SECONDS = 60
# The kinds of calls, in the order of the report of fail.c.
KINDS = ("read", "write", "error", "memory", "open")
REPORT = struct.Struct("%dQ" % (2 * len(KINDS) + 2))

# A command to run: its name in messages, its words, and the name of the file that is its standard input, or None for
# an empty one.
Command = collections.namedtuple("Command", "name words stdin")
# What a run did: status (None where it didn't end in time), output and message, and by kinds how many calls it made
# and how many of them failed. `source` says which file the last failed read was of, from 1 as they were opened, or 0
# for standard input; `caller` where the last refused memory was asked for.
Done = collections.namedtuple("Done", "status out err calls failed source caller")


class NoLibrary(Exception):
    """The library couldn't be compiled; the text says why."""


def compile_library(folder):
    """Compiles fail.c into the folder and gives the library's path."""
    compiler = shutil.which("cc")
    if compiler is None:
        raise NoLibrary("cc, the C compiler that fail.c needs, isn't on the path")
    library = os.path.join(folder, "fail.so")
    words = [compiler, "-O2", "-fPIC", "-shared", "-o", library, os.path.join(HERE, "fail.c")]
    done = subprocess.run(words, stdout=subprocess.PIPE, stderr=subprocess.STDOUT, text=True)
    if done.returncode != 0:
        raise NoLibrary("fail.c isn't compiled here:\n%s" % done.stdout)
    return library


class Bench:
    """The program, the library, and the folder in which the program runs."""

    def __init__(self, program, folder, scratch):
        self.program = program
        self.folder = folder
        self.scratch = scratch
        self.library = compile_library(scratch)
        self.own = threading.local()

    def report_name(self):
        """The name of the calling thread's own report, which is made anew."""
        if not hasattr(self.own, "name"):
            self.own.name = os.path.join(self.scratch, "report-%d" % threading.get_ident())
        with open(self.own.name, "wb") as file:
            file.write(bytes(REPORT.size))
        return self.own.name

    def run(self, command, settings):
        """Runs the command with these settings of the library."""
        name = self.report_name()
        given = {key: str(value) for key, value in settings.items()}
        environment = {"LD_PRELOAD": self.library, "FAIL_REPORT": name, **given}
        status, out, err = self.start(command, environment)
        with open(name, "rb") as file:
            numbers = REPORT.unpack(file.read())
        calls = dict(zip(KINDS, numbers))
        failed = dict(zip(KINDS, numbers[len(KINDS):]))
        return Done(status, out, err, calls, failed, *numbers[-2:])

    def start(self, command, environment):
        """Status, output and message of the command in this environment, which says nothing of the library where the
        program is to run without it."""
        path = os.devnull if command.stdin is None else os.path.join(self.folder, command.stdin)
        with open(path, "rb") as stdin, subprocess.Popen(
                [self.program, *command.words], cwd=self.folder, env=environment, stdin=stdin,
                stdout=subprocess.PIPE, stderr=subprocess.PIPE) as process:
            try:
                out, err = process.communicate(timeout=SECONDS)
                return process.returncode, out, err
            except subprocess.TimeoutExpired:
                process.kill()
                out, err = process.communicate()
                return None, out, err
