"""Runs the program once over a device of that name, in place of its standard input or its standard
output, and ends with its status; with 100 where it was stopped, and 101 where what it printed isn't
the script's history, its beginning where the status is 5, or the one line of an error.

    python3 checks/devices.py PROGRAM SCRIPT HISTORY DEVICE
"""
import os
import pty
import resource
import select
import subprocess
import sys
import time
from pathlib import Path

SECONDS = 60
STOPPED, OTHER_TEXT = 100, 101
# What a pipe takes that nobody reads, and more.
MORE_THAN_A_PIPE = "task t uid 0 gid 0 label -\n" + "stat /\n" * 4096 + "end\n"
KIB = 1024


class Machine:
    """The program, a script and its history."""

    def __init__(self, program, script, history):
        self.program = os.path.abspath(program)
        self.script, self.history = Path(script).read_bytes(), Path(history).read_bytes()

    def start(self, word="run", **how):
        how = {"stdin": subprocess.DEVNULL, "stdout": subprocess.PIPE, **how}
        return subprocess.Popen([self.program, word], stderr=subprocess.PIPE, **how)

    def end(self, started, given=None):
        """The status, and what was printed."""
        printed, told = started.communicate(given, timeout=SECONDS)
        return (OTHER_TEXT if told else started.returncode), printed or b""

    def is_text(self, status, printed):
        """Whether what was printed goes with the status."""
        if status == 0:
            return printed == self.history
        if status == 5:
            return self.history.startswith(printed)
        return printed.startswith(b"macsim: ") and printed.count(b"\n") == 1

    def run(self, given=None, **how):
        started = self.start(stdin=subprocess.PIPE, **how)
        return self.end(started, self.script if given is None else given)


# The standard input


def closed_input(machine):
    return machine.end(machine.start(preexec_fn=lambda: os.close(0)))


def input_for_writing(machine):
    with open(os.devnull, "wb") as device:
        return machine.end(machine.start(stdin=device))


def pipe_that_stops(machine):
    """The other end is closed inside a task."""
    return machine.run(machine.script[: machine.script.index(b"end")])


def pipe_that_waits(machine):
    """Some bytes come, and the others later."""
    started = machine.start(stdin=subprocess.PIPE)
    for byte in (machine.script[:7], machine.script[7:50]):
        started.stdin.write(byte)
        started.stdin.flush()
        time.sleep(0.2)
    return machine.end(started, machine.script[50:])


def input_without_waiting(machine):
    """A pipe that would have the program wait, and doesn't let it."""
    reading, writing = os.pipe()
    os.set_blocking(reading, False)
    try:
        return machine.end(machine.start(stdin=reading))
    finally:
        os.close(writing)


def two_mebibytes(machine):
    return machine.run(machine.script + b"#" * 2 * KIB * KIB)


def terminal_input(machine):
    """The script is typed, and then the end of the input."""
    typed, terminal = pty.openpty()
    started = machine.start(stdin=terminal)
    os.write(typed, machine.script + b"\4")
    return machine.end(started)


# The standard output


def closed_output(machine):
    return machine.run(stdout=None, preexec_fn=lambda: os.close(1))


def output_for_reading(machine):
    with open(os.devnull, "rb") as device:
        return machine.run(stdout=device)


def pipe_without_reader(machine):
    reading, writing = os.pipe()
    os.close(reading)
    return machine.run(stdout=writing)


def output_without_waiting(machine):
    """A pipe that nobody reads, and that doesn't let the program wait."""
    reading, writing = os.pipe()
    os.set_blocking(writing, False)
    status, _ = machine.run(MORE_THAN_A_PIPE.encode(), stdout=writing)
    os.close(writing)
    with open(reading, "rb") as taken:
        is_beginning = taken.read().startswith(b"enter t\ndone t 1 ok stat dir")
    return (status if is_beginning else OTHER_TEXT), b""


def slow_reader(machine):
    """A pipe that is read little by little."""
    started = machine.start(stdin=subprocess.PIPE)
    started.stdin.write(MORE_THAN_A_PIPE.encode())
    started.stdin.close()
    time.sleep(0.2)
    printed = b"".join(iter(lambda: os.read(started.stdout.fileno(), 1000), b""))
    is_whole = printed.count(b"\n") == 3 * 4096 and printed.endswith(b"leave t\n")
    return (started.wait(SECONDS) if is_whole else OTHER_TEXT), machine.history


def terminal_output(machine):
    reading, terminal = pty.openpty()
    ended = machine.run(stdout=terminal)
    printed = b""
    while select.select([reading], [], [], 0)[0]:
        printed += os.read(reading, 65536)
    return ended[0], printed.replace(b"\r\n", b"\n")


# The machine


def with_stack(machine, size):
    limits = (size, size)
    # the environment lies in the stack too
    return machine.run(env={}, preexec_fn=lambda: resource.setrlimit(resource.RLIMIT_STACK, limits))


def small_stack(machine):
    return with_stack(machine, 512 * KIB)


def stack_of_64_kib(machine):
    return with_stack(machine, 64 * KIB)


DEVICES = [
    closed_input,
    input_for_writing,
    pipe_that_stops,
    pipe_that_waits,
    input_without_waiting,
    two_mebibytes,
    terminal_input,
    closed_output,
    output_for_reading,
    pipe_without_reader,
    output_without_waiting,
    slow_reader,
    terminal_output,
    small_stack,
    stack_of_64_kib,
]


def main():
    program, script, history, name = sys.argv[1:]
    machine = Machine(program, script, history)
    status, printed = next(device for device in DEVICES if device.__name__ == name)(machine)
    if status < 0 and not printed:
        return STOPPED
    return status if machine.is_text(status, printed) else OTHER_TEXT


if __name__ == "__main__":
    raise SystemExit(main())
