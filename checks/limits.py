"""Scripts at each limit of docs/MANUAL.md (LIMITS) and one past it, each with what the program
says: nothing, or the fault.
"""

from scripts import MODULES, TUNABLE

TASK = "task t uid 0 gid 0 label -\n"


def of_task(before, behind):
    """A script of a task, whose line has these words in the place of others."""
    return f"{TASK.replace(before, behind)}end\n"


def in_task(call):
    return f"{TASK}{call}\nend\n"


def of_file(path="/a", kind="reg", uid=0, mode=0o644, text=""):
    return f"file {path} {kind} uid {uid} gid 0 mode {mode:o} label -{text}\n"


def files(count):
    return "".join(of_file(f"/f{number}") for number in range(count))


def tasks(count):
    return "".join(of_task(" t ", f" t{number} ") for number in range(count))


def groups(count):
    return of_task("gid 0", "gid " + ",".join("0" * count))


def tree(components):
    """Directories one in another."""
    return "".join(of_file("/d" * depth, "dir") for depth in range(1, components + 1))


def boots(count):
    """So many boot lines. That of a module that is booted already stands past the others."""
    return "".join(f"boot {module}\n" for module in [*MODULES, MODULES[0]][:count])


def labelled(module, label):
    return f"boot mac_{module}\n" + of_task("-", f"{module}/{label}")


# What is limited, a script of so much, how much there may be, and the fault of one more.
NUMBERS = [
    ("files", files, 256, "257 fault 11 TooMany"),
    ("tasks", tasks, 16, "33 fault 11 TooMany"),
    ("lines of a task", lambda n: in_task("stat /\n" * n), 4096, "4098 fault 11 TooMany"),
    ("lists of rules", lambda n: in_task("ugidfw list\n" * n), 64, "66 fault 11 TooMany"),
    ("steps", lambda n: "steps\n" + "plan t\n" * n + "end\n", 65536, "65538 fault 11 TooMany"),
    ("groups", groups, 16, "1 fault 5 BadNumber"),
    ("components of a path", lambda n: in_task("stat " + "/d" * n), 8, "2 fault 8 BadPath"),
    ("components of a file's path", tree, 8, "9 fault 8 BadPath"),
    ("bytes of a component", lambda n: in_task("stat /" + "c" * n), 32, "2 fault 8 BadPath"),
    ("bytes of a name", lambda n: in_task("fork " + "n" * n), 32, "2 fault 8 BadPath"),
    ("bytes of a task's name", lambda n: of_task(" t ", f" {'n' * n} "), 32, "1 fault 8 BadPath"),
    ("bytes of a child's name", lambda n: in_task(f"@{'n' * n} exit"), 32, "2 fault 8 BadPath"),
    ("bytes of a file", lambda n: of_file(text=" text " + "a" * n), 65536, "1 fault 11 TooMany"),
    ("escapes", lambda n: of_file(text=" text " + "\\61" * n), 65536, "1 fault 11 TooMany"),
    ("numbers", lambda n: of_file(uid=n), 2**32 - 1, "1 fault 5 BadNumber"),
    ("octal numbers", lambda n: of_file(mode=n), 0o7777, "1 fault 5 BadNumber"),
    ("numbers of rules", lambda n: in_task(f"ugidfw remove {n}"), 249, "2 fault 5 BadNumber"),
    ("grades", lambda n: labelled("biba", n), 65535, "2 fault 6 BadLabel"),
    ("grades of mac_lomac", lambda n: labelled("lomac", n), 65535, "2 fault 6 BadLabel"),
    ("compartments", lambda n: labelled("mls", f"1:{n}"), 256, "2 fault 6 BadLabel"),
    ("partitions", lambda n: labelled("partition", n), 2**31 - 1, "2 fault 6 BadLabel"),
    ("numbers of descriptors", lambda n: in_task(f"close {n}"), 15, "2 fault 5 BadNumber"),
    ("ports", lambda n: in_task(f"bind s tcp {n}"), 65535, "2 fault 5 BadNumber"),
    ("boot lines of a module", lambda n: "boot mac_biba\n" * n, 1, "2 fault 12 BootRefused EEXIST"),
    ("boot lines", boots, 8, "9 fault 11 TooMany"),
    ("tunable lines", lambda n: "boot mac_biba\n" + f"{TUNABLE}\n" * n, 1, "3 fault 9 Duplicate"),
]
# Bytes that a script may hold, and next to each one that it may not.
BYTES = [
    *(("\t", "\x08"), ("\n", "\x0b"), (" ", "\x1f"), ("~", "\x7f")),
    *(("\n", "\r\n"), (" ", "\0"), ("~", "\x80")),
]


def limits():
    """Each script with its name and what the program prints as its fault."""
    rows = [(name, make(most), make(most + 1), fault) for name, make, most, fault in NUMBERS]
    for right, wrong in BYTES:
        rows.append((repr(wrong), f"# {right}\n", f"# {wrong}\n", "1 fault 1 NotText"))
    for name, within, past, fault in rows:
        printed = f"macsim: script line {fault}\n"
        yield f"at the limit of {name}", within.encode("latin-1"), b""
        yield f"past the limit of {name}", past.encode("latin-1"), printed.encode()
