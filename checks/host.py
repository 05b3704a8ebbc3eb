"""Makes of each example with files what a machine would print that is as the script says, has tools/from-host make a script of that, and compares the
matrices of the two. With --whole they are the same; without it each row is that of the file and of the task that stand for its own. Prints a line for
each that differs, and then a count.

The script is taken with its boot lines, files and tasks, and with the settings and rules that stand at the end of its calls, one task after another.
"""
import os
import re
import subprocess
import sys
import tempfile
from concurrent.futures import ThreadPoolExecutor
from pathlib import Path

ROOT = Path(__file__).resolve().parent.parent
sys.path.insert(0, str(ROOT / "tools"))

from macsim_checks import is_change
from macsim_command import read_script, replies_in, run_program, steps_of, with_steps
from macsim_host_rules import Unsayable, rule_there
from macsim_labels import LATTICES, PARTITION, boot_label, request_of, value_text

# The proved program, which checks/counting has looked for.
PROGRAM = ROOT / "crates/macsim/out/macsim"
FROM_HOST = ROOT / "tools" / "from-host"
HELPER = "listing"
BITS = "rwxrwxrwx"
FIRST_PID = 100


def is_of_setting(words):
    return is_change(words) and words[0] in ("ugidfw", "sysctl")


class Example:
    """A script without calls, with what its changes have left."""

    def __init__(self, path):
        self.script = read_script(path)
        self.lines = [line for line in self.script.lines if line.split()[:1] and line.split()[0] in ("boot", "tunable", "file")]
        self.slots = {boot.module: slot for slot, boot in enumerate(boot for boot in self.script.boots if boot.module in (*LATTICES, PARTITION))}
        self.settings, self.rules = self.left_by_changes()

    def heads(self):
        return {task.name: f"task {task.name} uid {task.uid} gid {','.join(map(str, task.groups))} label {task.label}" for task in self.script.tasks.values()}

    def left_by_changes(self):
        """The settings and rules at the end, as the program tells them. What a child sets counts as its task's own call."""
        calls = {task.name: [" ".join(call.words) for call in task.calls if is_of_setting(call.words)] for task in self.script.tasks.values()}
        lines = [*self.lines, *(line for name, head in self.heads().items() for line in (head, *calls[name], "end"))]
        lines += [f"task {HELPER} uid 0 gid 0 label -", "ugidfw list", "end"]
        steps = [step for name, made in calls.items() for call in made for step in steps_of(name, call.split())]
        steps += steps_of(HELPER, ["ugidfw", "list"])
        replies = replies_in(run_program(PROGRAM, "step", with_steps(lines, steps)), self.script.name)
        done = [call for name, made in calls.items() for number, call in enumerate(made, 1) if replies[name, number].startswith("ok")]
        settings = dict(call.split()[1].split("=", 1) for call in done if call.startswith("sysctl "))
        listed = replies[HELPER, 1].split(" ; ")[1:] if replies[HELPER, 1].startswith("ok") else []
        return settings, {int(number): rule for number, rule in (each.split(" ", 1) for each in listed)}

    def label(self, kind, text):
        label = boot_label(self.slots, kind, request_of(text))
        return ",".join(value_text(module, label[slot]) for module, slot in self.slots.items() if slot in label) or "-"

    def rules_there(self):
        """The rules in the words of ugidfw(8). What has none there is left out of both scripts."""
        found = {}
        for number, rule in self.rules.items():
            try:
                found[number] = rule_there(rule.split())
            except Unsayable:
                continue
        return found

    def text(self):
        """The same script, with what was left by the changes as calls of its first task of uid 0, or of a task of its own."""
        calls = [f"sysctl {name}={value}" for name, value in self.settings.items()]
        calls += [f"ugidfw set {number} {rule}" for number, rule in self.rules.items() if number in self.rules_there()]
        lines = [*self.lines]
        for name, head in self.heads().items():
            lines += [head, "end"]
        lines += [f"task {HELPER} uid 0 gid 0 label -", *calls, "end"]
        return "".join(f"{line}\n" for line in lines)


# What a machine would print


def bits_of(kind, mode):
    letters = [letter if mode >> (8 - place) & 1 else "-" for place, letter in enumerate(BITS)]
    for bit, place, both, alone in ((0o4000, 2, "s", "S"), (0o2000, 5, "s", "S"), (0o1000, 8, "t", "T")):
        if mode & bit:
            letters[place] = both if letters[place] == "x" else alone
    return kind + "".join(letters)


def ls_line(kind, uid, gid, mode, label, path):
    return f"{bits_of(kind, mode)}  1 {uid}  {gid}  {label}  512 Dec  1 07:00 {path}"


def outputs_of(example):
    """What collect.sh would print on a machine that is as the script says."""
    script, settings = example.script, dict(example.settings)
    if script.revocation:
        settings["security.mac.biba.revocation_enabled"] = "1"
    rules = example.rules_there()
    lines = ["== uname", "FreeBSD made-up", "== kldstat", "Id Refs Address                Size Name", " 1    1 0xffffffff80200000  2448f20 kernel"]
    lines += [f" {place}    1 0xffffffff82649000     8d90 {boot.module}.ko" for place, boot in enumerate(script.boots, 2)]
    lines += ["== sysctl", "security.mac.version: 4", *(f"{name}: {value}" for name, value in settings.items())]
    lines += ["== ugidfw", f"{len(rules)} slots, {len(rules)} rules", *(f"{number} {rule}" for number, rule in rules.items())]
    lines += ["== passwd", "root:*:0:0", "== group", "wheel:*:0:root", "== mount", "/dev/ada0p2 on / (ufs, local, multilabel)"]
    lines += ["== ls", ls_line("d", 0, 0, 0o755, example.label("vnode", "-"), "/")]
    for file in script.files.values():
        kind = "d" if file.is_directory else "-"
        lines.append(ls_line(kind, file.uid, file.gid, file.mode, example.label("vnode", file.label), file.path))
    tasks = list(enumerate(script.tasks.values(), FIRST_PID))
    lines += ["== ps", " PID PPID JID LABEL                COMMAND", *(f"{pid} 1 0 {example.label('proc', task.label)} {task.name}" for pid, task in tasks)]
    lines += ["== procstat", "  PID COMM              EUID  RUID SVUID  EGID  RGID SVGID UMASK FLAGS GROUPS"]
    for pid, task in tasks:
        gid = task.groups[0]
        lines.append(f"{pid} {task.name:16} {task.uid} {task.uid} {task.uid} {gid} {gid} {gid} 022 - {','.join(map(str, task.groups))}")
    return "".join(f"{line}\n" for line in [*lines, "== end"])


# The comparison


def matrix_of(text):
    """The letters by process and object, but for those of the tasks that make changes."""
    lines = [line.split() for line in run_program(PROGRAM, "matrix", text).splitlines() if line.startswith("matrix ")]
    return {(one, other): letters for _, one, other, letters in lines if not {one, other} & {f"proc:{HELPER}", "proc:setup"}}


def made_again(outputs, words):
    """The script of the outputs, and what stands there for each file and process."""
    with tempfile.NamedTemporaryFile("r") as report:
        command = [FROM_HOST, "--report", report.name, *words]
        ran = subprocess.run(command, input=outputs.encode("ascii"), capture_output=True, check=True)
        told = report.read()
    stands = {f"vnode:{path}": f"vnode:{own}" for path, own in re.findall(r"^file (\S+) (\S+)$", told, re.M)}
    stands.update({int(pid): f"proc:{name}" for pid, name in re.findall(r"^process (\d+) (\S+)$", told, re.M)})
    return ran.stdout.decode("ascii"), stands


def differing(example, outputs, wanted, words):
    """The pairs that may do something else than in a matrix."""
    text, stands = made_again(outputs, words)
    found = matrix_of(text)
    own = {f"proc:{task.name}": stands[pid] for pid, task in enumerate(example.script.tasks.values(), FIRST_PID)}
    own.update({title: name for title, name in stands.items() if isinstance(title, str)})
    pairs = {pair: tuple(own.get(title, title) for title in pair) for pair in wanted}
    if words and (set(wanted) != set(found) or any(pair != place for pair, place in pairs.items())):
        return [pair for pair, place in pairs.items() if pair != place] or [*set(wanted) ^ set(found)]
    return [pair for pair, place in pairs.items() if wanted[pair] != found.get(place)]


def judged(path):
    """How many pairs an example has, and a line for each way in which some of them differ."""
    example = Example(path)
    outputs, wanted = outputs_of(example), matrix_of(example.text())
    told = []
    for words in (["--whole"], []):
        wrong = differing(example, outputs, wanted, words)
        if wrong:
            told.append(f"{path.name} {' '.join(words)}: {len(wrong)} of {len(wanted)} pairs differ, as {' '.join(wrong[0])}")
    return len(wanted), told


def main():
    paths = [path for path in sorted((ROOT / "examples").glob("*.macsim")) if read_script(path).files]
    with ThreadPoolExecutor(os.cpu_count()) as pool:
        found = list(pool.map(judged, paths))
    failures = [line for _, told in found for line in told]
    pairs = sum(count for count, _ in found)
    print("".join(f"{line}\n" for line in failures) + f"{len(paths)} examples, {pairs} pairs, {len(failures)} failed")
    return 1 if failures or not pairs else 0


sys.exit(main())
