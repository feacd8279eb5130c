"""Runs of the program with the seconds and the memory that they take.

The memory of a process is counted from that of the process that starts it, so runs are started by a small process of
their own, which this file is when it is run: it takes a line of JSON for each run and answers with one.
"""
import json
import os
import signal
import subprocess
import sys
import time

# A run that takes longer is ended.
SECONDS = 600


class Runner:
    """Starts runs through the small process. Inputs and outputs are files of a folder."""

    def __init__(self, program, folder):
        self.program, self.folder = program, folder
        self.starter = subprocess.Popen([sys.executable, "-I", "-S", os.path.abspath(__file__)], text=True,
                                        stdin=subprocess.PIPE, stdout=subprocess.PIPE)

    def path(self, name):
        return os.path.join(self.folder, name)

    def write(self, name, content):
        with open(self.path(name), "wb") as file:
            file.write(content)

    def read(self, name):
        with open(self.path(name), "rb") as file:
            return file.read()

    def run(self, words, out="out"):
        """A run's status, message, seconds and kilobytes; its output goes to the file of that name."""
        wanted = {"words": [self.program] + words, "folder": self.folder, "out": out}
        self.starter.stdin.write(json.dumps(wanted) + "\n")
        self.starter.stdin.flush()
        done = json.loads(self.starter.stdout.readline())
        return done["status"], self.read("err"), done["seconds"], done["kilobytes"]

    def close(self):
        self.starter.stdin.close()
        self.starter.stdout.close()
        self.starter.wait()


def measured(words, out):
    """Runs the words in this process's folder; status, seconds and kilobytes."""
    opening = os.O_WRONLY | os.O_CREAT | os.O_TRUNC
    actions = [(os.POSIX_SPAWN_OPEN, 0, os.devnull, os.O_RDONLY, 0),
               (os.POSIX_SPAWN_OPEN, 1, out, opening, 0o600), (os.POSIX_SPAWN_OPEN, 2, "err", opening, 0o600)]
    begin = time.monotonic()
    process = os.posix_spawn(words[0], words, os.environ, file_actions=actions)
    signal.signal(signal.SIGALRM, lambda *_: os.kill(process, signal.SIGKILL))
    signal.alarm(SECONDS)
    _, status, usage = os.wait4(process, 0)
    signal.alarm(0)
    seconds = time.monotonic() - begin
    return {"status": os.waitstatus_to_exitcode(status), "seconds": seconds, "kilobytes": usage.ru_maxrss}


def main():
    for line in sys.stdin:
        wanted = json.loads(line)
        os.chdir(wanted["folder"])
        print(json.dumps(measured(wanted["words"], wanted["out"])), flush=True)


if __name__ == "__main__":
    main()
