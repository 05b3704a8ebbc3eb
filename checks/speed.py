"""Prints how many instructions and how much time the program takes beside a plain one, how its
instructions grow with calls, files, rules, elements and tasks, and what `chains` and `why` take
beyond a run in which nothing is denied. speed.sh says how it is started."""
import math
import os
import re
import resource
import subprocess
import sys
import time

REPLANNING = dict(os.environ, PEER_REPLAN="1")
NOBODY = "uid 0 gid 0"


def script(front, tasks):
    """The script of these lines and of tasks, each of them a label and its calls."""
    lines = list(front)
    for number, (label, calls) in enumerate(tasks):
        lines += [f"task t{number} {NOBODY} label {label}", *calls, "end"]
    return "".join(f"{line}\n" for line in lines).encode()


def files(count, label="biba/high"):
    return [f"file /f{it} reg {NOBODY} mode 644 label {label} text x" for it in range(count)]


def over_files(calls, count):
    """Reads and writes in turn over so many files of one directory."""
    lines = [
        f"read /f{it % count}" if it % 2 else f"write /f{it * 7 % count} y" for it in range(calls)
    ]
    return script(["boot mac_biba", *files(count)], [("biba/high", lines)])


def with_rules(calls, count):
    """Reads, with so many rules to be walked at each check."""
    rules = [f"ugidfw add subject uid {it + 1} object mode n" for it in range(count)]
    reads = [f"read /f{it % 16}" for it in range(calls)]
    return script(["boot mac_bsdextended", *files(16, "-")], [("-", rules + reads)])


def with_elements(calls, count):
    """Reads by one task, to which information of so many elements comes."""
    front = ["boot mac_biba"]
    for it in range(count):
        front.append(f"file /f{it} reg {NOBODY} mode 644 label biba/{it + 1} text x")
    reads = [f"read /f{it % count}" for it in range(calls)]
    return script(front, [("biba/low", reads)])


def load(printer, calls, tasks):
    """The script of the load that `gen` runs."""
    words = [printer, str(calls), str(tasks)]
    return subprocess.run(words, stdout=subprocess.PIPE, check=True).stdout


def instructions(command, text, environment=None):
    """How many instructions a run takes, on all its threads together."""
    words = ["valgrind", "--tool=callgrind", "--callgrind-out-file=/dev/null", *command]
    ran = subprocess.run(words, input=text, capture_output=True, env=environment)
    return int(re.search(rb"Collected : (\d+)", ran.stderr)[1])


def timed(command, text, runs, environment=None):
    """The least milliseconds of some runs, and what was printed."""
    least, printed = math.inf, b""
    for _ in range(runs):
        start = time.perf_counter()
        ran = subprocess.run(command, input=text, stdout=subprocess.PIPE, env=environment)
        least, printed = min(least, time.perf_counter() - start), ran.stdout
    return least * 1000, printed


def peak(command, text, environment=None):
    """The most memory that a run held, in megabytes; what is less than the interpreter's own, some 14, counts as that."""
    watch = "import resource, subprocess, sys; subprocess.run(sys.argv[1:], stdout=subprocess.DEVNULL); "
    watch += "print(resource.getrusage(resource.RUSAGE_CHILDREN).ru_maxrss)"
    words = [sys.executable, "-c", watch, *command]
    ran = subprocess.run(words, input=text, stdout=subprocess.PIPE, env=environment)
    return int(ran.stdout) / 1024


def without_sources(text):
    return [line for line in text.split(b"\n") if not line.startswith(b"source ")]


def against(mine, its, single):
    """A figure of the program, and those of the plain one and of its single thread, each with the ratio."""
    return [mine, its, mine / its, single, mine / single]


def compare(program, plain, printer, runs):
    works = [
        ("4,000 reads and writes, 256 files", over_files(4000, 256)),
        ("1,000 reads and writes, 256 files", over_files(1000, 256)),
        ("load 4096 1", load(printer, 4096, 1)),
        ("load 1024 16", load(printer, 1024, 16)),
        ("load 4096 16", load(printer, 4096, 16)),
    ]
    beside = ["plain", "ratio", "run1", "ratio"]
    heads = ["M instr.", *beside, "ms", *beside, "MB", "plain"]
    print(f"{'work':36}" + "".join(f"{head:>9}" for head in heads) + "  same as run1")
    for name, text in works:
        own, other, single = [program, "run"], [plain, "run"], [plain, "run1"]
        counts = [instructions(own, text), instructions(other, text, REPLANNING)]
        counts.append(instructions(single, text))
        (mine, printed), (its, _) = timed(own, text, runs), timed(other, text, runs, REPLANNING)
        least, wanted = timed(single, text, runs)
        memory = [peak(own, text), peak(other, text, REPLANNING)]
        row = [*against(*(it / 1e6 for it in counts)), *against(mine, its, least), *memory]
        same = without_sources(printed) == without_sources(wanted)
        print(f"{name:36}" + "".join(f"{it:9.2f}" for it in row) + f"  {'yes' if same else 'no'}")


def grow(program, printer):
    """Prints each series: sizes, instructions in millions, and the exponent from size to size."""
    series = [
        ("calls, 16 tasks", [64, 256, 1024, 4096], lambda n: load(printer, n, 16)),
        ("calls, one task", [64, 256, 1024, 4096], lambda n: load(printer, n, 1)),
        ("files in a directory", [1, 16, 256], lambda n: over_files(4000, n)),
        ("rules", [1, 250], lambda n: with_rules(3800, n)),
        ("elements", [2, 256], lambda n: with_elements(4000, n)),
        ("tasks, 4,096 calls", [1, 2, 4, 8, 16], lambda n: load(printer, 4096 // n, n)),
    ]
    print(f"\n{'series':24}sizes, M instructions, exponents")
    for name, sizes, of_size in series:
        counts = [instructions([program, "run"], of_size(size)) for size in sizes]
        pairs = zip(zip(sizes, counts), zip(sizes[1:], counts[1:]))
        slopes = [math.log(d / b) / math.log(c / a) for (a, b), (c, d) in pairs]
        columns = [sizes, [f"{it / 1e6:.1f}" for it in counts], [f"{it:.2f}" for it in slopes]]
        print(f"{name:24}" + "; ".join(" ".join(map(str, column)) for column in columns))


LATTICES = ["boot mac_biba", "boot mac_mls", "boot mac_lomac"]


def by_eight(front, calls):
    """Eight tasks without a label that make these calls, again and again, 800 each."""
    return script(front, [("-", (calls * 800)[:800]) for _ in range(8)])


def beyond(program):
    """Prints what `run chains` and `run why` take beyond `run`, in millions, where nothing is denied."""
    works = [
        ("reads and writes, mac_biba", over_files(4000, 256)),
        ("reads, three policies", by_eight([*LATTICES, *files(16, "-")], [f"read /f{it}" for it in range(16)])),
        ("appends, three policies", by_eight([*LATTICES, *files(1, "-")], ["write /f0 x", "chmod /f0 600"])),
        ("privileges, three policies", by_eight(LATTICES, ["priv SCHED_RTPRIO"])),
        ("processes seen, three policies", by_eight(LATTICES, ["see t0"])),
        ("modules listed, three policies", by_eight(LATTICES, ["kldstat"])),
    ]
    print(f"\n{'beyond a run':36}" + "".join(f"{head:>9}" for head in ["chains", "why", "ratio"]))
    for name, text in works:
        run, chains, why = (instructions([program, "run", *words], text) for words in ([], ["chains"], ["why"]))
        row = [(chains - run) / 1e6, (why - run) / 1e6, (why - run) / (chains - run)]
        print(f"{name:36}" + "".join(f"{it:9.2f}" for it in row))


def main():
    program, plain, *more = sys.argv[1:]
    printer = "crates/macsim_load/out/macsim_load"
    compare(program, plain, printer, int(more[0]) if more else 10)
    grow(program, printer)
    beyond(program)


main()
