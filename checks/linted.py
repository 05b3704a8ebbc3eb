"""Holds tools/lint to the program: its first fault is the program's, with the same line and the same name, and it tells none
where the program takes the script. So over all texts of docs/ERRORS.md, each as a script, a line, a label, a rule, a number and
a text; at each limit and one past it; and over scripts of mutated bytes, always the same ones.

Then the faults behind the first. Where several calls of a script are mutated, the lines told are those for which the program
refuses the script with that call alone, with the same fault. Where one line outside of tasks is, and the program refuses that
line, no other is told; and so where an `end` is misspelled, or a task begins among the steps. Of rules and label texts the place
is that of docs/ERRORS.md. A line for each failure, then a count.

    checks/linted.py [--scripts N]
"""
import argparse
import random
import re

from judging import ROOT
from limits import limits
from mutations import SEED, WORDS, mutations
from running import Program

from macsim_lint import faults_of
from macsim_slips import WANTS, slips_of_label, slips_of_rule, words_of
from macsim_text import WORDS as FORMS
from macsim_text import script_of

ERRORS = (ROOT / "docs/ERRORS.md").read_text()
BOOTS = "".join(f"boot mac_{name}\n" for name in "biba lomac partition bsdextended portacl".split())
FILES = "file /a reg uid 0 gid 0 mode 644 label -\nfile /d dir uid 0 gid 0 mode 755 label -\n"
TASK = "task t uid 0 gid 0 label -\n"
# What stands in the place of a text of docs/ERRORS.md, as a part of a script.
FRAMES = [
    *("{}", f"{BOOTS}{{}}\n{FILES}{TASK}end\n", f"{BOOTS}{FILES}{{}}\n{TASK}end\n", f"{BOOTS}{FILES}{TASK}{{}}\nread /a\nend\n"),
    *(f"{TASK}end\nsteps\n{{}}\nend\n", f"{BOOTS}task t uid 0 gid 0 label {{}}\nend\n", f"{BOOTS}file /a dir uid 0 gid 0 mode 0 label {{}}\n"),
    *(f"{TASK}ugidfw add {{}}\nend\n", "task t uid {} gid 0 label -\nend\n", "task t uid 0 gid {} label -\nend\n"),
    *("file /a reg uid 0 gid 0 mode {} label -\n", f"{TASK}bind s tcp {{}}\nend\n", f"{TASK}write /a {{}}\nend\n"),
]
# Scripts with one fault, from which others seem to follow: an `end` that is misspelled, and a `task` line among the steps.
STEPPED, OTHER = f"{TASK}getpmac\nend\nsteps\nplan t\n", "task u uid 0 gid 0 label -\n"
CASCADES = [
    *(f"{TASK}getpmac\n{end}\n{OTHER}getpmac\nend\n" for end in ("ende", "End", "fin\n\n# a comment")),
    *(f"{TASK}getpmac\nende\n", f"{TASK}getpmac\nende\nsteps\nplan t\nend\n", f"{STEPPED}ende\n"),
    *(f"{STEPPED}{OTHER}{rest}end\n" for rest in ("plan t\ndone t\n", "", "getpmac\n", "getpmac\nend\nplan t\n", "end\nplan t\n")),
]
LEFT_OUT = [" uid 0 gid 0 mode 644 ", " uid 0 gid 0 "]
ESCAPES = {"\\n": "\n", "\\r": "\r", "\\\\": "\\"}


def spans():
    """Each text of docs/ERRORS.md, as it stands there, as printf(1) takes it, and with what `..` leaves out."""
    for span in dict.fromkeys(re.findall(r"`([^`\n]+)`", ERRORS)):
        span = span.replace("\\|", "|")
        yield from (span, re.sub(r"\\[nr\\]", lambda found: ESCAPES[found[0]], span))
        yield from (span.replace(" .. ", words) for words in LEFT_OUT if " .. " in span)


def texts(count):
    """The scripts over which the first fault is compared, with their names."""
    for span in dict.fromkeys(spans()):
        for frame in FRAMES:
            yield f"docs/ERRORS.md: {span!r}", frame.format(span)
    for name, text, _ in [*limits(), *mutations(count)]:
        yield name, text.decode("latin-1")


def refusal(program, text):
    """The line and the fault of the program, nothing where it takes the script, or None where it ends otherwise."""
    ended = program.run(["run"], text.encode("latin-1"))
    if ended.status not in (0, 3):
        return None
    return ended.printed.decode("latin-1").removeprefix("macsim: script ").strip() if ended.status else ""


def fault_of_first(program, text):
    """How the first fault differs from that of the program, or None."""
    wanted = refusal(program, text)
    told = next((found.title() for found in faults_of(text)), "")
    return None if told == wanted else f"{told or 'no fault'}, where the program says {wanted or 'none'}"


# The faults behind the first


def lines_of_scripts():
    """The lines of each example, with the places of its calls and of the lines outside tasks and steps."""
    for path in sorted(ROOT.glob("examples/*.macsim")):
        script = script_of(path.read_text(), path.name)
        calls = [call.number - 1 for task in script.tasks.values() for call in task.calls]
        kinds = [*script.boots, *script.files.values(), *script.tasks.values()]
        yield script.lines, calls, [line.number - 1 for line in kinds]


def mutated(chance, line):
    """A line with another word in the place of one."""
    words = line.split()
    words[chance.randrange(len(words))] = chance.choice([word for word in WORDS if b" " not in word]).decode("latin-1")
    return " ".join(words)


def with_lines(lines, others):
    return "".join(f"{others.get(place, line)}\n" for place, line in enumerate(lines))


def firsts(text):
    """The first fault of each line that has one."""
    found = {}
    for fault in faults_of(text):
        found.setdefault(fault.number, fault.title())
    return found


def fault_of_calls(program, chance, lines, places):
    """How the faults of some mutated calls differ from those that each has alone, or None."""
    others = {place: mutated(chance, lines[place]) for place in chance.sample(places, min(5, len(places)))}
    others = {place: line for place, line in others.items() if line.split()[0] not in ("end", "steps", "boot", "file", "task", "tunable")}
    alone = [refusal(program, with_lines(lines, {place: line})) for place, line in sorted(others.items())]
    told, wanted = [*firsts(with_lines(lines, others)).values()], [fault for fault in alone if fault]
    return None if told == wanted else f"{told} in place of {wanted}: {[*others.values()]}"


def fault_of_front(program, chance, lines, places):
    """Which other lines are told where one outside of tasks is mutated and refused, or None."""
    place = chance.choice(places)
    text = with_lines(lines, {place: mutated(chance, lines[place])})
    if not (refusal(program, text) or "").startswith(f"line {place + 1} "):
        return None
    others = {number: title for number, title in firsts(text).items() if number != place + 1}
    return f"{others} besides: {text.splitlines()[place]}" if others else None


def fault_of_cascade(program, text):
    """What is told besides the program's fault, or None."""
    told = [found.title() for found in faults_of(text)]
    return None if told == [refusal(program, text)] else f"{told}: {text!r}"


# Places


def rows(title):
    """The rows of a table of docs/ERRORS.md, without marks."""
    section = ERRORS.split(f"\n## {title}\n")[1].split("\n## ")[0]
    for row in section.splitlines():
        cells = [cell.strip().replace("`", "") for cell in row.strip("|").split(" | ")]
        if row.startswith("| ") and len(cells) == 5 and re.match(r"\d", cells[3]):
            yield cells[2], int(re.match(r"\d+", cells[3])[0])


def fault_of_rule(words, place):
    line = words_of("" if words == "no word" else words)
    if not line:
        return None
    slip = slips_of_rule(line, 0)[0]
    told = next((number for number, word in enumerate(line) if word.start == slip.start), len(line))
    return None if told == place else f"word {told} in place of {place}: {words}"


def fault_of_label(text, place):
    slip = slips_of_label(words_of(text)[0], "proc", {"mac_biba", "mac_mls", "mac_lomac", "mac_partition"})[0]
    return None if slip.start <= place <= slip.end else f"bytes {slip.start} to {slip.end}, and not {place}: {text}"


def fault_of_kinds():
    """Which kinds of words in the forms of calls and lines have no fault of their own, or None."""
    unknown = (set(FORMS) - {"MODULE"}) ^ (set(WANTS) - {"RULE_NUMBER"})
    return f"{unknown} in macsim_text.py or macsim_slips.py alone" if unknown else None


def faults(program, count):
    """Each case with what is wrong with it, or None."""
    yield "kinds of words", fault_of_kinds()
    for name, text in texts(count):
        yield f"{name}: {text[:200]!r}", fault_of_first(program, text)
    chance, scripts = random.Random(SEED), list(lines_of_scripts())
    for number in range(count // 4):
        lines, calls, front = scripts[number % len(scripts)]
        if calls:
            yield "several calls", fault_of_calls(program, chance, lines, calls)
        yield "a line outside of tasks", fault_of_front(program, chance, lines, front)
    yield from (("what follows from a fault", fault_of_cascade(program, text)) for text in CASCADES)
    yield from (("a rule", fault_of_rule(*row)) for row in rows("Rules"))
    yield from (("a label text", fault_of_label(*row)) for row in rows("Label texts"))


def main():
    parser = argparse.ArgumentParser()
    parser.add_argument("--scripts", type=int, default=1000)
    given = parser.parse_args()
    passed = failed = 0
    for name, fault in faults(Program(ROOT / "crates/macsim/out/macsim"), given.scripts):
        passed, failed = passed + (fault is None), failed + (fault is not None)
        if fault is not None:
            print(f"linted: {name}: {fault}")
    print(f"{passed} texts linted as the program judges them, {failed} not")
    return 1 if failed or not passed else 0


if __name__ == "__main__":
    raise SystemExit(main())
