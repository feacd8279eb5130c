#!/usr/bin/env python3
"""Runs the cases of tests/cases on the built program.

    python3 tests/run_cases.py [PROGRAM] [PART OF A NAME ..]

PROGRAM is the program that ./build makes, where none is given; where that isn't there, nothing is run and the exit
status is 2. A case is one JSON file whose name says what it shows:

  shows         one line on what the case is there for
  args          the words
  stdin         the bytes of standard input: a text, {"hex": digits}, {"repeat": [text, times]}, or a list of these
  files         name -> bytes, in the same forms; they lie in the folder that the program runs in
  examples      names of files of examples/ that are copied into that folder
  pipes         name -> bytes, in the same forms; each is a named pipe in that folder, written once
  stdin_folder  true: standard input is a folder, so that it can't be read
  out_full      true: standard output takes nothing
  script        the name of a script of examples/python that is run with the words, the program's path in STOCK
  status, out, err   the exit status and the exact texts that are wanted

A line is printed for each case that fails, and at the end 'N passed, M failed'. The exit status is 1 where one failed.
"""
import json
import os
import shutil
import subprocess
import sys
import tempfile
import threading

HERE = os.path.dirname(os.path.abspath(__file__))
CASES = os.path.join(HERE, "cases")
EXAMPLES = os.path.join(HERE, "..", "examples")
PROGRAM = os.path.join(HERE, "..", "crates", "stock", "out", "stock")
SECONDS = 60


def bytes_of(content):
    if content is None:
        return b""
    if isinstance(content, str):
        return content.encode()
    if isinstance(content, list):
        return b"".join(map(bytes_of, content))
    if "hex" in content:
        return bytes.fromhex(content["hex"])
    text, times = content["repeat"]
    return text.encode() * times


def fill(path, content):
    """Writes the bytes into the pipe once a reader has opened it; a reader may stop early."""
    try:
        with open(path, "wb") as pipe:
            pipe.write(content)
    except BrokenPipeError:
        pass


def prepare(case, folder):
    """Puts the case's files, examples and pipes into the folder."""
    for name, content in case.get("files", {}).items():
        with open(os.path.join(folder, name), "wb") as file:
            file.write(bytes_of(content))
    for name in case.get("examples", []):
        shutil.copy(os.path.join(EXAMPLES, name), folder)
    for name, content in case.get("pipes", {}).items():
        path = os.path.join(folder, name)
        os.mkfifo(path)
        threading.Thread(target=fill, args=(path, bytes_of(content)), daemon=True).start()


def run(program, case, folder):
    """What the program did: its output, its message and its status."""
    streams = {"input": bytes_of(case.get("stdin")), "stdout": subprocess.PIPE, "stderr": subprocess.PIPE}
    opened = []
    if case.get("stdin_folder"):
        del streams["input"]
        streams["stdin"] = os.open(folder, os.O_RDONLY)
        opened.append(streams["stdin"])
    if case.get("out_full"):
        streams["stdout"] = os.open("/dev/full", os.O_WRONLY)
        opened.append(streams["stdout"])
    words = [program]
    if "script" in case:
        words = [sys.executable, os.path.join(EXAMPLES, "python", case["script"])]
        streams["env"] = {**os.environ, "STOCK": program, "PYTHONDONTWRITEBYTECODE": "1"}
    try:
        done = subprocess.run(words + case["args"], cwd=folder, timeout=SECONDS, **streams)
    finally:
        for number in opened:
            os.close(number)
    return done.stdout or b"", done.stderr, done.returncode


def short(value):
    text = repr(value)
    return text if len(text) <= 200 else text[:200] + "..."


def faults_of(program, case):
    """What isn't as the case wants it, as lines."""
    with tempfile.TemporaryDirectory() as folder:
        prepare(case, folder)
        try:
            out, err, status = run(program, case, folder)
        except subprocess.TimeoutExpired:
            return ["no end after %d seconds" % SECONDS]
    wanted = {"status": case["status"], "out": case["out"].encode(), "err": case["err"].encode()}
    got = {"status": status, "out": out, "err": err}
    return ["%s: expected %s, got %s" % (what, short(wanted[what]), short(got[what]))
            for what in wanted if wanted[what] != got[what]]


def main():
    words = sys.argv[1:]
    program = os.path.abspath(words[0] if words else PROGRAM)
    if not os.access(program, os.X_OK):
        print("%s isn't built; ./build builds it" % os.path.relpath(program))
        return 2
    passed = failed = 0
    for file_name in sorted(os.listdir(CASES)):
        name, ending = os.path.splitext(file_name)
        if ending != ".json" or not all(part in name for part in words[1:]):
            continue
        with open(os.path.join(CASES, file_name), encoding="utf-8") as file:
            case = json.load(file)
        faults = faults_of(program, case)
        if faults:
            failed += 1
            print("%s: %s" % (name, "; ".join(faults)))
        else:
            passed += 1
    print("%d passed, %d failed" % (passed, failed))
    return 1 if failed else 0


if __name__ == "__main__":
    sys.exit(main())
