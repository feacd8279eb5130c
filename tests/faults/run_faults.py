#!/usr/bin/env python3
"""Runs the built program with reads, writes and memory that fail, and tests how it ends.

    python3 tests/faults/run_faults.py [PROGRAM] [PART OF A COMMAND'S NAME ..] [--long]

PROGRAM is the program that ./build makes, where none is given; where that isn't there, or fail.c can't be compiled,
nothing is run and the exit status is 2. What a command writes without faults is what it has to write (that this is
right is what tests/cases are for):

  - whole, where each read and write takes at most 1, 7 or 4,096 bytes, or is interrupted once before it is done;
  - with the k-th read or opened file failing, nothing, with status 4 and the name of that input in the message;
  - with the k-th write failing, a front of it, with status 5 and its message;
  - with the k-th write of the message failing, the same status and output;
  - with the k-th request for memory refused, a front of it, with status 7 and its message or none.

With --long (some minutes) every k is tried, under all these pieces, up to the first that isn't met any more; else the
first ones, ever fewer behind them, and the last ones. A line is printed for each run that ends otherwise, and at the
end one with the counts. The exit status is 1 where a run did.
"""
import collections
import concurrent.futures
import os
import sys
import tempfile
import time

from fault_commands import (BRACKETED, CERTIFIED, all_commands, bracket_of, bracket_on, certificate_of, on_file,
                            opened_files, prepare)
from fault_runs import HERE, Bench, NoLibrary

PROGRAM = os.path.join(HERE, "..", "..", "crates", "stock", "out", "stock")
WORKERS = 2
# The most bytes of a read or write, 0 for no limit.
PIECES = (0, 1, 7, 4096)
CANNOT_WRITE = b"stock: cannot write\n"
NO_MEMORY = b"stock: out of memory\n"

# What is wanted of a run: the status, and of output and message each a text that tells it and a test.
Wanted = collections.namedtuple("Wanted", "status out err")
# What a command does where nothing fails.
Plain = collections.namedtuple("Plain", "status out err")
# A kind of fault: its name, the kind of call that fails, further settings, and what is wanted of a command, what it
# does without the fault, and what it did.
Fault = collections.namedtuple("Fault", "name kind settings wanted")
# One run to do: the fault, or None where nothing fails, the call that fails, and the settings.
Task = collections.namedtuple("Task", "command plain fault place settings")


def short(value):
    text = repr(value)
    return text if len(text) <= 120 else text[:120] + "..."


def exactly(text):
    return short(text), lambda got: got == text


def front_of(text):
    return "a front of " + short(text), text.startswith


def less_than(text):
    return "a front, but not all, of " + short(text), lambda got: got != text and text.startswith(got)


def same(command, plain, done):
    return Wanted(plain.status, exactly(plain.out), exactly(plain.err))


def read_fault(command, plain, done):
    names = ["-", *opened_files(command)]
    name = names[done.source] if done.source < len(names) else "(a file that isn't among the words)"
    return Wanted(4, exactly(b""), exactly(b"stock: cannot read %s\n" % name.encode()))


def write_fault(command, plain, done):
    return Wanted(5, less_than(plain.out), exactly(CANNOT_WRITE))


def message_fault(command, plain, done):
    return Wanted(plain.status, exactly(plain.out), less_than(plain.err))


def no_memory(command, plain, done):
    # Only the words, which are collected before, take memory of this command.
    if command.words == ["help"]:
        return Wanted(7, exactly(b""), exactly(b""))
    return Wanted(7, front_of(plain.out), ("%s or nothing" % NO_MEMORY, lambda got: got in (b"", NO_MEMORY)))


def untold(wanted):
    """The same without a message, since standard error fails too."""
    return lambda command, plain, done: wanted(command, plain, done)._replace(err=exactly(b""))


ALSO_THE_MESSAGE = {"FAIL_ERROR": 1}
FAULTS = (
    Fault("read", "read", {}, read_fault),
    Fault("read and message", "read", ALSO_THE_MESSAGE, untold(read_fault)),
    Fault("open", "open", {}, read_fault),
    Fault("write", "write", {}, write_fault),
    Fault("write of nothing", "write", {"FAIL_NOTHING": 1}, write_fault),
    Fault("write and message", "write", ALSO_THE_MESSAGE, untold(write_fault)),
    Fault("message", "error", {}, message_fault),
    Fault("memory", "memory", {}, no_memory),
    Fault("memory from there on", "memory", {"FAIL_REST": 1}, no_memory),
    Fault("memory and message", "memory", ALSO_THE_MESSAGE, untold(no_memory)),
)


def complaints(wanted, done):
    """What isn't as it is wanted, as lines."""
    if done.status is None:
        return ["no end in time"]
    if done.status < 0:
        return ["ended by signal %d" % -done.status]
    found = []
    if done.status != wanted.status:
        found.append("status: expected %d, got %d" % (wanted.status, done.status))
    for what, (told, test), got in (("out", wanted.out, done.out), ("err", wanted.err, done.err)):
        if not test(got):
            found.append("%s: expected %s, got %s" % (what, told, short(got)))
    return found


def places(fault, count, is_long):
    """The calls that are to fail, of so many: all, or the first ones, ever fewer behind them, and the last two. Not
    every read and write fails together with something else."""
    if is_long and (not fault.settings or fault.kind == "memory"):
        return range(1, count + 1)
    first = 10 if is_long or not fault.settings else 2
    chosen = {place for place in (*range(1, first + 1), count - 1, count) if 1 <= place <= count}
    place = float(first)
    while place < count:
        chosen.add(int(place))
        place *= 1.5
    return sorted(chosen)


def is_short(fault, piece):
    """Whether the fault is tried with these pieces without --long."""
    if fault.kind == "memory":
        return piece == 0
    return piece == 7 if fault.settings else piece != 4096


def fault_tasks(command, plain, settings, counted, is_long):
    """The runs of a command with these pieces in which a call fails, and those where that call isn't met."""
    for fault in FAULTS:
        if not is_long and not is_short(fault, settings["FAIL_PIECE"]):
            continue
        count = counted.calls[fault.kind]
        setting = "FAIL_" + fault.kind.upper()
        for place in places(fault, count, is_long):
            yield Task(command, plain, fault, place, {**settings, **fault.settings, setting: place})
        if not fault.settings:
            yield Task(command, plain, None, count + 1, {**settings, setting: count + 1})


def needed(command, plain):
    """The kinds of calls that the command can't do without."""
    kinds = {"memory"}
    if plain.out:
        kinds.add("write")
    if plain.err:
        kinds.add("error")
    if plain.status in (0, 1) and opened_files(command):
        kinds |= {"open", "read"}
    if plain.status in (0, 1) and command.stdin is not None:
        kinds.add("read")
    return kinds


class Test:
    """All runs, with the counts of what they met."""

    def __init__(self, bench, pool, is_long):
        self.bench = bench
        self.pool = pool
        self.is_long = is_long
        self.runs = self.failures = 0
        self.met = collections.Counter()

    def tell(self, command, text):
        self.failures += 1
        print("%s: %s" % (command.name, text), flush=True)

    def perform(self, task):
        return task, self.bench.run(task.command, task.settings)

    def judge(self, task, done):
        """Tells what is wrong with a run, and counts it."""
        self.runs += 1
        wanted = same if task.fault is None else task.fault.wanted
        found = complaints(wanted(task.command, task.plain, done), done)
        if task.fault is None:
            found += ["%s fails, past the last" % kind for kind in done.failed if done.failed[kind] != 0]
        elif done.failed[task.fault.kind] == 0:
            found.append("the fault isn't met")
        elif task.fault.kind == "write" and task.settings["FAIL_PIECE"] == 0 and done.out and not done.out.endswith(b"\n"):
            # Output goes out in pieces of whole lines.
            found.append("out: a piece that ends inside a line")
        else:
            self.met[task.fault.name] += 1
        if found:
            settings = " ".join("%s=%s" % pair for pair in task.settings.items())
            name = "no fault" if task.fault is None else "%s %d" % (task.fault.name, task.place)
            caller = ", asked for at %x" % done.caller if done.caller else ""
            self.tell(task.command, "%s (%s%s): %s" % (name, settings, caller, "; ".join(found)))

    def all_of(self, tasks):
        """Does these runs side by side, and gives what each did."""
        ended = []
        for task, done in self.pool.map(self.perform, tasks):
            self.judge(task, done)
            ended.append(done)
        return ended

    def with_pieces(self, command, plain):
        """The runs without a fault under all pieces, and what they counted, by the piece."""
        pieces = [{"FAIL_PIECE": piece} for piece in PIECES]
        interrupted = [{"FAIL_INTERRUPT": 1, **settings} for settings in pieces]
        ended = self.all_of([Task(command, plain, None, 0, settings) for settings in pieces + interrupted])
        unseen = needed(command, plain) - {kind for kind, count in ended[0].calls.items() if count}
        if unseen:
            self.tell(command, "fail.c sees no call of the kinds %s" % ", ".join(sorted(unseen)))
        return list(zip(pieces, ended))

    def try_command(self, command):
        plain = Plain(*self.bench.start(command, {}))
        if plain.status is None or plain.status < 0:
            self.tell(command, "doesn't end by itself where nothing fails")
            return
        counts = self.with_pieces(command, plain)
        self.all_of([task for settings, counted in counts
                     for task in fault_tasks(command, plain, settings, counted, self.is_long)])


def make_certificates(bench):
    """Writes the certificates that are checked; gives the name of an instance that has none."""
    exact = [(name, on_file("certify", name), certificate_of(name)) for name in CERTIFIED]
    bounds = [(name, bracket_on(name), bracket_of(name)) for name in BRACKETED]
    for name, command, file_name in exact + bounds:
        status, out, _ = bench.start(command, {})
        if status != 0:
            return name
        with open(os.path.join(bench.folder, file_name), "wb") as file:
            file.write(out)
    return None


def run_all(program, is_long, parts):
    """The exit status of the whole test."""
    started = time.monotonic()
    with tempfile.TemporaryDirectory() as scratch:
        folder = os.path.join(scratch, "run")
        os.mkdir(folder)
        prepare(folder)
        try:
            bench = Bench(program, folder, scratch)
        except NoLibrary as reason:
            print(reason)
            return 2
        name = make_certificates(bench)
        if name is not None:
            print("the program gives no certificate of the instance %s; nothing was tried" % name)
            return 1
        with concurrent.futures.ThreadPoolExecutor(WORKERS) as pool:
            test = Test(bench, pool, is_long)
            for command in all_commands():
                if all(part in command.name for part in parts):
                    test.try_command(command)
    met = ", ".join("%d %s" % (count, name) for name, count in test.met.items()) or "none"
    print("%d runs in %.0f seconds; faults met: %s; %d failed"
          % (test.runs, time.monotonic() - started, met, test.failures))
    return 1 if test.failures else 0


def main():
    words = [word for word in sys.argv[1:] if word != "--long"]
    program = os.path.abspath(words[0] if words else PROGRAM)
    if not os.access(program, os.X_OK):
        print("%s isn't built; ./build builds it" % os.path.relpath(program))
        return 2
    return run_all(program, "--long" in sys.argv[1:], words[1:])


if __name__ == "__main__":
    sys.exit(main())
