"""Runs a command whose standard input and standard error are a terminal: `terminal.py COMMAND..` types
the end of the input, prints what the terminal shows, and ends with the command's status."""
import os
import pty
import subprocess
import sys


def shown(typed):
    """What comes to the terminal, until nobody has it open any more."""
    text = b""
    while True:
        try:
            text += os.read(typed, 65536)
        except OSError:
            return text


typed, terminal = pty.openpty()
started = subprocess.Popen(sys.argv[1:], stdin=terminal, stdout=subprocess.DEVNULL, stderr=terminal)
os.close(terminal)
os.write(typed, b"\4")
sys.stdout.buffer.write(shown(typed))
sys.exit(started.wait())
