"""The checks of each call, with what they are about, by the tables of calls in docs/MANUAL.md (CALLS), and which way information moves at a
check that passes, by the table of operations (POLICIES). Nothing of it is proved.

Each check is its operation, its subject and its object, which may be None. The framework's tests end a call between two checks only where
something isn't there or isn't a directory, where a descriptor isn't open for what the call does, and where a label text or a module isn't
known, which the reply tells.
"""
from macsim_text import number_of

TO_SUBJECT = set("vnode_lookup vnode_readdir vnode_open_read vnode_read vnode_exec vnode_stat pipe_read pipe_stat socket_receive".split())
TO_OBJECT = set(
    "vnode_open_write vnode_write vnode_create vnode_unlink_dir vnode_unlink vnode_setmode pipe_write socket_send socket_deliver"
    " proc_signal proc_sched".split()
)
BOTH_WAYS = {"proc_debug"}
# What is looked for under one name: its kind, the place of the name among the words, and the operation.
NAMED = {
    "see": ("proc", 1, "proc_visible"),
    "signal": ("proc", 1, "proc_signal"),
    "debug": ("proc", 1, "proc_debug"),
    "sched": ("proc", 1, "proc_sched"),
    "pread": ("pipe", 1, "pipe_read"),
    "pwrite": ("pipe", 1, "pipe_write"),
    "pstat": ("pipe", 1, "pipe_stat"),
    "setpipemac": ("pipe", 2, "pipe_relabel"),
    "recv": ("socket", 1, "socket_receive"),
    "seesock": ("socket", 1, "socket_visible"),
    "setsockmac": ("socket", 2, "socket_relabel"),
    "bind": ("socket", 1, "socket_bind"),
}
# What is looked for under a path: the place of the path among the words, whether it must be a directory, and the operations.
PLACED = {
    "exec": (1, False, ["vnode_exec"]),
    "read": (1, False, ["vnode_open_read", "vnode_read"]),
    "write": (1, False, ["vnode_open_write", "vnode_write"]),
    "open": (1, False, ["vnode_open_read", "vnode_open_write"]),
    "stat": (1, None, ["vnode_stat"]),
    "getfmac": (1, None, ["vnode_stat"]),
    "setfmac": (2, None, ["vnode_relabel"]),
    "readdir": (1, True, ["vnode_readdir"]),
    "chmod": (1, None, ["vnode_setmode"]),
}
CREATING = ("create", "mkdir")
# The letter of its last word by which `open` asks an operation; and what calls ask through a descriptor, with the letter that it must have been
# opened by.
OPENING = {"vnode_open_read": "r", "vnode_open_write": "w"}
THROUGH = {"fread": ("r", "vnode_read"), "fwrite": ("w", "vnode_write")}
WITHOUT_OBJECT = {"setpmac": ["cred_relabel"], "priv": ["priv"], "kldload": ["priv", "kld_load"], "kldunload": ["priv", "kld_unload"]}
# The place of the label text among the words.
RELABELS = {"setpmac": 1, "setfmac": 1, "setpipemac": 1, "setsockmac": 1}
# What the reply to a call begins with that is done, where it isn't `ok` alone.
PAYLOADS = {
    **dict.fromkeys(("read", "fread", "pread", "recv"), "ok bytes"),
    "open": "ok fd",
    **dict.fromkeys(("getpmac", "getfmac"), "ok label"),
    "stat": "ok stat",
    "pstat": "ok size",
    "readdir": "ok names",
    "kldstat": "ok modules",
    "kldload": "ok slot",
    "ugidfw list": "ok rules",
    "ugidfw add": "ok rule",
}


def is_change(words):
    return words[0] in ("kldload", "kldunload", "sysctl") or (words[0] == "ugidfw" and words[1] != "list")


def is_reply_to(words, reply):
    """Whether a reply is a refusal, or of the kind that such a call gets."""
    name = " ".join(words[:2]) if words[0] == "ugidfw" else words[0]
    return reply.startswith("no ") or " ".join(reply.split(" ")[:2]) == PAYLOADS.get(name, "ok")


def asked_at_end(walk, words):
    """The operations at the end of a path, and what each is about."""
    if words[0] in CREATING:
        is_free = walk.directory is not None and walk.found is None
        return [("vnode_create", walk.directory)] if is_free else []
    if words[0] == "unlink":
        is_entry = walk.directory is not None and walk.found is not None
        return [("vnode_unlink_dir", walk.directory), ("vnode_unlink", walk.found)] if is_entry else []
    _, wants_directory, operations = PLACED[words[0]]
    if walk.found is None or wants_directory not in (None, walk.found.facts.is_directory):
        return []
    return [(operation, walk.found) for operation in operations if words[0] != "open" or OPENING[operation] in words[2]]


def checks_along(things, caller, words):
    walk = things.walk(words[PLACED[words[0]][0] if words[0] in PLACED else 1])
    asked = [("vnode_lookup", directory) for directory in walk.lookups] + asked_at_end(walk, words)
    return [(operation, caller, found) for operation, found in asked]


def checks_through_descriptor(caller, words):
    letter, operation = THROUGH[words[0]]
    descriptor = caller.descriptors.get(number_of(words[1]))
    return [] if descriptor is None or letter not in descriptor.mode else [(operation, caller, descriptor.file)]


def checks_of_send(things, caller, words):
    sender, receiver = things.named("socket", words[1]), things.named("socket", words[2])
    checks = [("socket_send", caller, sender), ("socket_deliver", sender, receiver)]
    return [] if sender is None else checks[:1] if receiver is None else checks


def checks_of_name(things, caller, words):
    kind, place, operation = NAMED[words[0]]
    found = things.named(kind, words[place])
    return [] if found is None else [(operation, caller, found)]


def checks_without_object(caller, words, reply):
    operations = WITHOUT_OBJECT.get(words[0], [])
    is_unknown_module = words[0] == "kldload" and reply == "no ENOENT - -"
    return [(operation, caller, None) for operation in (operations[:1] if is_unknown_module else operations)]


def checks_of(things, caller, words, reply):
    """The checks of a call in their order, up to where the framework ends it. The caller is None where it isn't there."""
    is_unclaimed = words[0] in RELABELS and reply == "no EINVAL - -"
    if caller is None or is_unclaimed:
        return []
    if words[0] == "send":
        return checks_of_send(things, caller, words)
    if words[0] in THROUGH:
        return checks_through_descriptor(caller, words)
    if words[0] in PLACED or words[0] in CREATING or words[0] == "unlink":
        return checks_along(things, caller, words)
    if words[0] in NAMED:
        return checks_of_name(things, caller, words)
    return checks_without_object(caller, words, reply)
