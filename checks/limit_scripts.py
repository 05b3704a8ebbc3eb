"""Worked rows of the words `matrix` and `chains`, and scripts at their limits and one past each."""
from scripts import script_of

HIGH_READER = script_of(
    ["boot mac_biba", "file /a reg uid 0 gid 0 mode 644 label biba/low text hi"],
    ("t uid 0 gid 0 label biba/high", ["read /a"]),
)
PIPE_MAKER = script_of(
    ["boot mac_biba", "file /a reg uid 0 gid 0 mode 644 label biba/high text hi"],
    ("t uid 0 gid 0 label biba/5", ["read /a", "pipe p", "pwrite p x"]),
)
# What is created has its maker's, and this comes behind the checks: its item is 0, and the maker's step may be one of the same event.
FILE_MAKER = script_of(
    ["boot mac_biba", "file /d dir uid 0 gid 0 mode 755 label biba/5"],
    ("t uid 0 gid 0 label biba/5", ["create /d/n"]),
)
# Both sides of a debug get what the other had before.
DEBUGGERS = script_of(
    ["boot mac_biba", "file /a reg uid 0 gid 0 mode 644 label biba/7", "file /b reg uid 0 gid 0 mode 644 label biba/9"],
    ("t uid 0 gid 0 label biba/5", ["fork c", "read /a", "@c read /b", "debug t.c"]),
)
# A module without sources has no chains, and a lowering is no origin.
LOWERED = script_of(
    ["boot mac_bsdextended", "boot mac_lomac", "file /a reg uid 0 gid 0 mode 644 label lomac/3"],
    ("t uid 0 gid 0 label -", ["read /a", "fork c"]),
)
# What is relabelled begins anew, also with its old element, and hands on no more of the old; what is equal has nothing.
RELABELLED = script_of(
    ["boot mac_biba", "file /a reg uid 0 gid 0 mode 644 label biba/7", "file /e reg uid 0 gid 0 mode 644 label biba/equal"],
    ("t uid 0 gid 0 label biba/5", ["read /a", "setpmac biba/5", "write /e x", "read /e"]),
)
ROWS = [
    (
        "a high reader: matrix",
        *(HIGH_READER, "matrix"),
        ["matrix proc:t vnode:/ rwxs", "matrix proc:t vnode:/a -w--", "matrix proc:t proc:t vgdc"],
    ),
    (
        "a maker of a pipe: chains",
        *(PIPE_MAKER, "chains"),
        ["chain biba vnode:/ high 0@0", "chain biba vnode:/a high 1@0", "chain biba proc:t 5 2@0"]
        + ["chain biba proc:t high 0@0 2@2.1", "chain biba pipe:p 5 3@5"]
        + ["chain biba pipe:p high 0@0 2@2.1 3@5.0"],
    ),
    (
        "a maker of a file: chains",
        *(FILE_MAKER, "chains"),
        ["chain biba vnode:/ high 0@0", "chain biba vnode:/d 5 1@0", "chain biba vnode:/d high 0@0 2@2.1 1@2.3"]
        + ["chain biba proc:t 5 2@0", "chain biba proc:t high 0@0 2@2.1", "chain biba vnode:/d/n 5 3@2"]
        + ["chain biba vnode:/d/n high 0@0 2@2.1 3@2.0"],
    ),
    (
        "two who debug each other: chains",
        *(DEBUGGERS, "chains"),
        ["chain biba vnode:/ high 0@0", "chain biba vnode:/a 7 1@0", "chain biba vnode:/b 9 2@0"]
        + ["chain biba proc:t 5 3@0", "chain biba proc:t 7 1@0 3@5.2", "chain biba proc:t 9 2@0 4@8.2 3@11.1"]
        + ["chain biba proc:t high 0@0 3@5.1", "chain biba proc:t.c 5 4@2", "chain biba proc:t.c 7 1@0 3@5.2 4@11.1"]
        + ["chain biba proc:t.c 9 2@0 4@8.2", "chain biba proc:t.c high 0@0 4@8.1"],
    ),
    (
        "one who is lowered: chains",
        *(LOWERED, "chains"),
        ["chain lomac vnode:/ high 0@0", "chain lomac vnode:/a 3 1@0", "chain lomac proc:t 3 1@0 2@2.2"]
        + ["chain lomac proc:t high 2@0", "chain lomac proc:t.c 3 3@5", "chain lomac proc:t.c high 2@0 3@5.0"],
    ),
    (
        "one who is relabelled: chains",
        *(RELABELLED, "chains"),
        ["chain biba vnode:/ high 0@0", "chain biba vnode:/a 7 1@0", "chain biba proc:t 5 3@5"]
        + ["chain biba proc:t high 0@0 3@8.1"],
    ),
]
FILES = 255


def labelled(names, number):
    return ",".join(f"{name}/{number}" for name in names)


def files(names):
    return [f"file /f{number} reg uid 0 gid 0 mode 644 label {labelled(names, number)}" for number in range(1, FILES + 1)]


def readings():
    return [f"read /f{number}" for number in range(1, FILES + 1)]


def additions(limit):
    """A script of so many additions, over three policies together, each of which alone has a third."""
    names = ("biba", "mls", "lomac")
    each = len(names) * (FILES + 2)
    before = 2 * each - len(names)
    makes, relabels = divmod(limit - before, each)
    children = 2
    lines = readings()
    for child in range(children):
        pipes = range(child, makes - children, children)
        lines += [f"fork c{child}", *(f"@c{child} pipe p{number}" for number in pipes), f"@c{child} exit"]
    lines += ["setpmac biba/low"] * relabels
    boots = [f"boot mac_{name}" for name in names]
    return script_of([*boots, *files(names)], ("t uid 0 gid 0 label biba/low,mls/high,lomac/low", lines))


def steps(is_past):
    """A script of 1,048,576 steps, or of one more: a row of children, each made by the one before, and a pipe."""
    names = ("biba", "mls")
    lines = ["fork u", "@u setpmac mls/low", *readings(), "fork c1"]
    lines += [f"@c{number} fork c{number + 1}" for number in range(1, 62)]
    lines += ["@c30 pipe p", *["@u stat /"] * is_past]
    boots = [f"boot mac_{name}" for name in names]
    return script_of([*boots, *files(names)], ("t uid 0 gid 0 label biba/low,mls/high", lines))


def chain_limits(limit):
    """Scripts at the limits of chains and one past each: of what so many, over all rows and policies together."""
    yield "at the limit of additions", additions(limit), "additions", limit
    yield "past the limit of additions", additions(limit + 1), "additions", limit + 1
    yield "at the limit of steps", steps(False), "steps", limit
    yield "past the limit of steps", steps(True), "steps", limit + 1


def greatest_matrix():
    """The script of most processes that may live, and its matrix."""
    children = [f"t.c{number}" for number in range(1022)]
    script = script_of(
        ["boot mac_biba"], ("t uid 0 gid 0 label biba/5", [f"fork c{number}" for number in range(len(children))])
    )
    parties = [f"proc:{name}" for name in ("t", *children)]
    lines = []
    for subject in parties:
        lines += [f"matrix {subject} vnode:/ r-xs", *(f"matrix {subject} {other} vgdc" for other in parties)]
    return script, lines
