"""Runs the commands of docs/HOST.md, which stand behind `$ ` in indented lines, one after another in one folder, and compares what each prints with the
lines below it; `..` stands for any lines. Prints a line for each that differs, and then a count."""
import re
import subprocess
import sys
import tempfile
from pathlib import Path

ROOT = Path(__file__).resolve().parent.parent
DOCUMENT = ROOT / "docs" / "HOST.md"
INDENT, SIGN, ANY = "    ", "$ ", ".."


def commands_of(text):
    """Each command with the lines that are told below it."""
    found = []
    for line in text.split("\n"):
        told = line.removeprefix(INDENT) if line.startswith(INDENT) else None
        if told is None:
            found.append(None)
        elif told.startswith(SIGN):
            found.append((told.removeprefix(SIGN), []))
        elif found and found[-1] is not None:
            found[-1][1].append(told)
    return [command for command in found if command is not None]


def main():
    failed, commands = 0, commands_of(DOCUMENT.read_text())
    with tempfile.TemporaryDirectory() as folder:
        for name in ("examples", "tools", "macsim"):
            Path(folder, name).symlink_to(ROOT / name)
        for command, lines in commands:
            ran = subprocess.run(["sh", "-c", command], cwd=folder, capture_output=True, text=True, check=False)
            pattern = "".join("(?:.*\n)*" if line == ANY else re.escape(f"{line}\n") for line in lines)
            if not re.fullmatch(pattern, ran.stdout):
                failed += 1
                print(f"docs/HOST.md: {command}: it prints\n{ran.stdout}{ran.stderr}")
    print(f"{len(commands)} commands of docs/HOST.md, {failed} failed")
    return 1 if failed or not commands else 0


sys.exit(main())
