"""The commands: what they refuse, and write nothing of; several scripts; and collect.sh, with other commands in the place of a machine's."""
import os
import subprocess
import tempfile
import unittest
from pathlib import Path

from making import TOOLS

EXAMPLES = TOOLS.parent / "examples"
HOST = (EXAMPLES / "58-made-of-a-web-server.host").read_text()
# What each command of the machine prints is the section of that name; ls looks up the line of its path.
PRINTING = """#!/bin/sh
awk -v name="== {section}" '/^== / {{ found = $0 == name; next }} found' "$HOST"
"""
LS = """#!/bin/sh
shift
for path in "$@"; do awk -v path="$path" 'substr($0, 2, 9) ~ /^[-rwxsStT]+$/ && $NF == path' "$HOST"; done
"""


def run(tool: str, *words: str, text: str = "") -> subprocess.CompletedProcess[str]:
    return subprocess.run([TOOLS / tool, *words], input=text, capture_output=True, text=True, check=False)


class FromHost(unittest.TestCase):
    def refuses(self, text: str, said: str, *words: str) -> None:
        with tempfile.TemporaryDirectory() as folder:
            ran = run("from-host", "--report", f"{folder}/report", *words, text=text)
            self.assertEqual((ran.returncode, ran.stdout, os.listdir(folder)), (2, "", []), ran.stderr)
            self.assertIn(said, ran.stderr)

    def test_a_line_that_is_cut(self) -> None:
        number = next(place for place, line in enumerate(HOST.split("\n"), 1) if line.endswith("key.pem"))
        self.refuses(HOST.replace(" /usr/local/etc/nginx/key.pem", ""), f"the standard input line {number}: it ends where a path")

    def test_a_text_that_is_cut(self) -> None:
        self.refuses(HOST[: HOST.index("== procstat")], "before its line `== end`")

    def test_words_that_fit_nothing(self) -> None:
        self.refuses(HOST, "no process, command or user `nobody`", "--process", "nobody")
        self.refuses(HOST, "there is no call `raed`", "--as", "nginx:raed /a")
        self.refuses(HOST, "there is no task, pid or command `apache`", "--as", "apache:read /a")
        self.refuses(HOST, "no line of ls has /nowhere", "--below", "/nowhere")

    def test_many_kinds_of_processes(self) -> None:
        ps, ids = "".join(f"{pid} 1 0 biba/low(low-low) worker\n" for pid in range(2000, 2020)), ""
        for pid in range(2000, 2020):
            ids += f"{pid} worker {pid} {pid} {pid} 5 5 5 022 - 5\n"
        text = HOST.replace("== procstat", f"{ps}== procstat").replace("== end", f"{ids}== end")
        ran = run("from-host", text=text)
        self.assertEqual((ran.returncode, ran.stdout.count("\ntask ")), (0, 16))
        self.assertIn("more than a script has, worker-2012", ran.stderr)
        with tempfile.TemporaryDirectory() as folder:
            ran = run("from-host", "--out", f"{folder}/web", text=text)
            self.assertEqual((ran.returncode, ran.stdout, sorted(os.listdir(folder))), (0, "", ["web-1.macsim", "web-2.macsim"]))
            for name in os.listdir(folder):
                script = Path(folder, name).read_text()
                self.assertIn("sysctl security.mac.portacl.rules=", script)
                self.assertLessEqual(script.count("\ntask "), 16)


class ToHost(unittest.TestCase):
    def test_a_history_of_another_script(self) -> None:
        ran = run("to-host", str(EXAMPLES / "24-web-server.macsim"), str(EXAMPLES / "01-plainest-denial.out"))
        self.assertEqual((ran.returncode, ran.stdout), (2, ""))
        self.assertIn("doesn't begin with the boot lines", ran.stderr)


class Json(unittest.TestCase):
    def test_what_is_no_line(self) -> None:
        refused = ("enter", "enter  t", "done t 01 ok", "done t 1 ok bytes 1 a", "matrix t vnode:/ r", "boot mac_biba 0 ", "done t 1 no EACCES - -x", "enter \xe4")
        for line in refused:
            ran = run("json", text=f"enter t\n{line}\n")
            self.assertEqual((ran.returncode, ran.stdout), (2, ""), line)
            self.assertIn("the standard input line 2: ", ran.stderr)

    def test_what_is_no_object(self) -> None:
        fields = ("", '"line": "enter"', '"line": "enter", "task": 1', '"line": "enter", "task": "a b"', '"line": "enter", "task": "t", "more": 1')
        for told in ("", "[]", *(f"{{{told}}}" for told in fields)):
            ran = run("json", "--back", text=f"{told}\n")
            self.assertEqual((ran.returncode, ran.stdout), (2, ""), told)
            self.assertIn("the standard input line 1: ", ran.stderr)


class Collect(unittest.TestCase):
    def machine(self, folder: str) -> dict[str, str]:
        """A folder of commands that print what the machine of the example does."""
        commands = {name: PRINTING.format(section=name) for name in ("uname", "kldstat", "ps", "procstat", "mount", "ugidfw")}
        commands["sysctl"] = '#!/bin/sh\nawk -v name="$1" \'/^== / { found = $2 == "sysctl"; next } found && index($0, name) == 1\' "$HOST"\n'
        commands["getent"] = '#!/bin/sh\nawk -v name="== $1" \'/^== / { found = $0 == name; next } found\' "$HOST" | sed "s/:\\*:/:SECRET:/"\n'
        commands["ls"] = LS
        commands["realpath"] = '#!/bin/sh\necho "$1"\n'
        commands["find"] = '#!/bin/sh\nawk -v path="$1" \'$NF == path || index($NF, path "/") == 1 { printf "%s%c", $NF, 0 }\' "$HOST"\n'
        for name, text in commands.items():
            Path(folder, name).write_text(text)
            Path(folder, name).chmod(0o755)
        Path(folder, "host").write_text(HOST)
        return {**os.environ, "PATH": f"{folder}:{os.environ['PATH']}", "HOST": f"{folder}/host"}

    def test_what_it_prints_is_read(self) -> None:
        with tempfile.TemporaryDirectory() as folder:
            command = ["sh", TOOLS / "collect.sh", "/usr/local/etc", "/var"]
            ran = subprocess.run(command, env=self.machine(folder), capture_output=True, text=True, check=True)
        self.assertIn("this is printed, and nothing else", ran.stderr)
        self.assertNotIn("SECRET", ran.stdout)
        made = run("from-host", text=ran.stdout)
        self.assertEqual(made.returncode, 0, made.stderr)
        self.assertIn("file /var/log/nginx/access.log reg uid 80", made.stdout)
        self.assertIn("task sh uid 1001 gid 1001,2000", made.stdout)

    def test_it_wants_a_path(self) -> None:
        ran = subprocess.run(["sh", TOOLS / "collect.sh"], capture_output=True, text=True, check=False)
        self.assertEqual((ran.returncode, ran.stdout), (2, ""))
