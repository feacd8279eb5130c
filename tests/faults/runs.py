"""Runs of the program, and several at once."""
import os
import select
import signal
import threading

HERE = os.path.dirname(os.path.abspath(__file__))
PROGRAM = os.path.join(HERE, "..", "..", "crates", "stock", "out", "stock")
SECONDS = 60
# The status that stands for a run that didn't end.
NO_END = "no end after %d seconds" % SECONDS


def program_of(words):
    """The program's path and whether the long form is wanted, of the words; None as the path where there is no such
    program, after a sentence that says so."""
    long = "--long" in words
    names = [word for word in words if word != "--long"]
    program = os.path.abspath(names[0] if names else PROGRAM)
    if not os.path.isfile(program) or not os.access(program, os.X_OK):
        print("%s isn't built; ./build builds it" % os.path.relpath(program))
        return None, long
    return program, long


def read_all(reader, process):
    """All bytes of a pipe; a process that writes nothing for too long is ended, and None returned."""
    pieces = []
    while True:
        if not select.select([reader], [], [], SECONDS)[0]:
            os.kill(process, signal.SIGKILL)
            return None
        piece = os.read(reader, 65536)
        if not piece:
            return b"".join(pieces)
        pieces.append(piece)


def run(program, words, text=None):
    """Output, message and status of a short run; `text` (at most 60,000 bytes) stands on standard input."""
    out_reader, out_writer = os.pipe()
    err_reader, err_writer = os.pipe()
    actions = [(os.POSIX_SPAWN_DUP2, out_writer, 1), (os.POSIX_SPAWN_DUP2, err_writer, 2)]
    opened = [out_writer, err_writer]
    if text is None:
        actions.append((os.POSIX_SPAWN_OPEN, 0, os.devnull, os.O_RDONLY, 0))
    else:
        in_reader, in_writer = os.pipe()
        os.write(in_writer, text)
        os.close(in_writer)
        actions.append((os.POSIX_SPAWN_DUP2, in_reader, 0))
        opened.append(in_reader)
    process = os.posix_spawn(program, [program] + words, os.environ, file_actions=actions)
    for number in opened:
        os.close(number)
    out = read_all(out_reader, process)
    err = read_all(err_reader, process) if out is not None else None
    os.close(out_reader)
    os.close(err_reader)
    status = os.waitstatus_to_exitcode(os.waitpid(process, 0)[1])
    return (b"", b"", NO_END) if err is None else (out, err, status)


def in_threads(count, items, work):
    """Calls work(number of the thread, item) for each item, in so many threads; the first exception is raised."""
    items = iter(items)
    lock = threading.Lock()
    faults = []

    def thread(number):
        while not faults:
            with lock:
                item = next(items, None)
            if item is None:
                return
            try:
                work(number, item)
            except Exception as fault:  # told by the caller's thread
                faults.append(fault)

    threads = [threading.Thread(target=thread, args=(number,)) for number in range(count)]
    for one in threads:
        one.start()
    for one in threads:
        one.join()
    if faults:
        raise faults[0]
