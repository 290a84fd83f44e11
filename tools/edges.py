"""Runs a command where the machine gives or takes less than it might."""
import contextlib
import os
import signal
import subprocess
import threading

SECONDS = 300
# How often a file is cut short, until the program is met while it reads it.
TURNS = 50


@contextlib.contextmanager
def started(words, folder, given=subprocess.DEVNULL):
    """Starts a command, and ends it where it takes too long."""
    with subprocess.Popen(words, stdin=given, stdout=subprocess.PIPE, stderr=subprocess.PIPE, cwd=folder) as child:
        timer = threading.Timer(SECONDS, child.kill)
        timer.start()
        try:
            yield child
        finally:
            timer.cancel()
            child.kill()


def ended(child):
    text, said = child.communicate()
    return child.returncode, text + said


def closed(words, folder, sign):
    """Returns the status and the output, where standard input (`<&-`) or standard output (`>&-`) is closed."""
    with started(["sh", "-c", f'exec "$@" {sign}', "sh", *words], folder) as child:
        return ended(child)


def head(words, folder, count, given):
    """Returns the status and the first lines, where the pipe that takes them is then closed."""
    with started(words, folder, given) as child:
        lines = [child.stdout.readline() for _ in range(count)]
        child.stdout.close()
        said = child.stderr.read()
        return child.wait(), b"".join(lines) + said


def place_in(child, path):
    """Returns how many bytes of the file the program has read, or nothing where it has not opened it."""
    files = f"/proc/{child.pid}/fd"
    with contextlib.suppress(OSError):
        for number in os.listdir(files):
            if os.readlink(f"{files}/{number}") == path:
                with open(f"{files}info/{number}", encoding="ascii") as info:
                    return int(info.readline().split()[1])
    return None


def is_stopped(child):
    with contextlib.suppress(OSError), open(f"/proc/{child.pid}/stat", encoding="utf-8") as stat:
        return stat.read().rpartition(")")[2].split()[0] == "T"
    return False


def shrunk(words, folder, name):
    """Returns the status and the output, where the file loses what the program has not yet read of it."""
    path = os.path.realpath(f"{folder}/{name}")
    size = os.path.getsize(path)
    for _ in range(TURNS):
        with started(words, folder) as child:
            while child.poll() is None and not place_in(child, path):
                pass
            child.send_signal(signal.SIGSTOP)
            while child.poll() is None and not is_stopped(child):
                pass
            place = place_in(child, path)
            if place and place < size:
                os.truncate(path, place)
                child.send_signal(signal.SIGCONT)
                return ended(child)
    return None, f"{name} was read before it could be cut short".encode()


def at_edge(words, folder, edge, given):
    """Returns the status and the output of the words at an edge, as a case writes it."""
    if edge in ("<&-", ">&-"):
        return closed(words, folder, edge)
    *_, last = edge.split()
    return shrunk(words, folder, last) if edge.startswith("><") else head(words, folder, int(last[1:]), given)
