"""Starts the program, or a crate's tests, over and over: with an input, with an allocation or a
thread refused, on some of the processors, within a time. What is printed goes to files, so no run
waits for who reads it. Stands on os.posix_spawn and is no part of the product."""
import mmap
import os
import signal
import struct
import tempfile
from collections import namedtuple

# How a program ended: its status, negative for a signal; what it printed, and what it told on the
# standard error; the seconds of processor time that it took; and how many allocations and threads
# it asked for, where they were counted.
Ended = namedtuple("Ended", "status printed told seconds allocations threads")
# What of a kind is refused: from the first on and before the last, by numbers from 1.
Refused = namedtuple("Refused", "first last")
NOTHING = Refused(1, 1)
ALL = Refused(1, 1 << 62)
PAGE_DESCRIPTOR = 9
PAGE = struct.Struct("=6Q")
# After so many seconds a run is stopped: it hangs.
MOST_SECONDS = 60


def one(number):
    return Refused(number, number + 1)


class Program:
    """A program, with the library that refuses where one is given."""

    def __init__(self, path, refusing=None):
        self.path, self.refusing = str(path), refusing
        self.given, self.printed, self.told, page = (tempfile.TemporaryFile() for _ in range(4))
        os.truncate(page.fileno(), mmap.PAGESIZE)
        self.page_file, self.page = page, mmap.mmap(page.fileno(), mmap.PAGESIZE)
        refuses = {"REFUSING": str(PAGE_DESCRIPTOR), "LD_PRELOAD": str(refusing)}
        self.environment = refuses if refusing else {}

    def run(self, words, given, allocations=NOTHING, threads=NOTHING):
        """Runs the program with these words over these bytes, and returns how it ended."""
        self.page[: PAGE.size] = PAGE.pack(*allocations, 0, *threads, 0)
        for file, text in ((self.given, given), (self.printed, b""), (self.told, b"")):
            os.ftruncate(file.fileno(), 0)
            os.pwrite(file.fileno(), text, 0)
            os.lseek(file.fileno(), 0, os.SEEK_SET)
        places = [self.given, self.printed, self.told]
        moves = [(os.POSIX_SPAWN_DUP2, file.fileno(), place) for place, file in enumerate(places)]
        moves.append((os.POSIX_SPAWN_DUP2, self.page_file.fileno(), PAGE_DESCRIPTOR))
        child = os.posix_spawn(self.path, [self.path, *words], self.environment, file_actions=moves)
        return self.await_end(child)

    def await_end(self, child):
        signal.signal(signal.SIGALRM, lambda *_: os.kill(child, signal.SIGKILL))
        signal.alarm(MOST_SECONDS)
        _, status, used = os.wait4(child, 0)
        signal.alarm(0)
        _, _, allocations, _, _, threads = PAGE.unpack(self.page[: PAGE.size])
        status = os.waitstatus_to_exitcode(status)
        seconds = used.ru_utime + used.ru_stime
        printed, told = bytes_of(self.printed), bytes_of(self.told)
        return Ended(status, printed, told, seconds, allocations, threads)


def bytes_of(file):
    return os.pread(file.fileno(), os.fstat(file.fileno()).st_size, 0)


def on_processors(count):
    """Lets this process and what it starts run on so many processors, of those that the machine
    has; returns how many these are."""
    processors = sorted(ALL_PROCESSORS)[:count]
    os.sched_setaffinity(0, processors)
    return len(processors)


ALL_PROCESSORS = os.sched_getaffinity(0)
