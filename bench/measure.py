"""Runs programs and keeps the least seconds, the greatest memory and the bytes written."""
import os
import subprocess
from dataclasses import dataclass


@dataclass
class Taken:
    seconds: float = 0
    peak: int = 0
    status: int = 0
    written: int = 0
    limit: int = 0

    def is_over(self):
        """Whether the run was ended at its limit."""
        return self.status == 137

    def answered(self):
        """The seconds of a run that ended with an answer."""
        return self.seconds if self.status < 2 else None

    def __str__(self):
        if self.is_over():
            return f"over {self.limit} s"
        return f"{self.seconds:.3f} s" + (f" (status {self.status})" if self.status > 1 else "")


def once(launch, words, out, limit, memory, processor):
    """One run of `words`, a list or one text for the shell, with standard output into the file `out`."""
    words = ["sh", "-c", words] if isinstance(words, str) else words
    with open(out, "wb") as sink:
        words = [launch, str(memory), str(limit)] + words
        said = subprocess.run(words, stdout=sink, stderr=subprocess.PIPE, check=True).stderr.split()
    size = 0 if out == os.devnull else os.path.getsize(out)
    return Taken(float(said[1 if processor else 0]), int(said[2]) * 1024, int(said[3]), size, limit)


def best(launch, jobs, turns, processor):
    """Runs jobs, each (words, out, limit, memory) or None, in turn, so many times round; one that was cut off only once."""
    found = [None] * len(jobs)
    for _ in range(turns):
        for i, job in enumerate(jobs):
            if job is None or (found[i] and found[i].is_over()):
                continue
            taken, before = once(launch, *job, processor), found[i]
            if before and not taken.is_over():
                taken.peak, taken.seconds = max(taken.peak, before.peak), min(taken.seconds, before.seconds)
            found[i] = taken
    return found


def size_text(count):
    return f"{count / 1e6:.1f} MB" if count >= 1000000 else f"{count:,} bytes"


def machine(date, note):
    """One line on the machine."""
    with open("/proc/cpuinfo", encoding="utf-8") as file:
        model = next((line.split(":")[1].strip() for line in file if line.startswith("model name")), "unknown processor")
    memory = os.sysconf("SC_PAGE_SIZE") * os.sysconf("SC_PHYS_PAGES") >> 30
    return f"{model}, {os.cpu_count()} processors, {memory} GiB of memory, {date}. {note}".strip()
