"""Processes, files, directories, pipes and sockets, and how names and paths lead to them, by docs/MANUAL.md (CALLS). Nothing of it is proved."""
from collections import namedtuple

# An open file of a process: the word by which it was opened, and the elements that the process and the file had then by mac_biba, or None.
Descriptor = namedtuple("Descriptor", "file mode subject object")
FileFacts = namedtuple("FileFacts", "uid gid mode is_directory")
Credential = namedtuple("Credential", "uid groups")
# Where a path leads: the directories in which its components are looked up, the last of them, and what is there. The directory is None for
# `/`; it and what is found are None where an earlier component names no directory.
Walk = namedtuple("Walk", "lookups directory found")


class Thing:
    """A process, file, directory, pipe or socket, from when it comes until it goes."""

    def __init__(self, kind, name, label, number, holder=None, facts=None):
        self.kind, self.name, self.label = kind, name, label
        # The line of the script that makes it, and 0 of the root directory.
        self.number = number
        # The directory of a file or directory, and the process that made a pipe or a socket.
        self.holder = holder
        # FileFacts of a file or directory, the Credential of a process.
        self.facts = facts
        # The descriptors of a process, by number.
        self.descriptors = {}
        self.title = f"{kind}:{name if kind != 'vnode' else self.path() or '/'}"

    def path(self):
        return "" if self.holder is None else f"{self.holder.path()}/{self.name}"

    def key(self):
        return self.kind, self.holder if self.kind == "vnode" else None, self.name


class Names:
    """A name for each thing that ever came: its title, and behind it #2 for the second of that title."""

    def __init__(self):
        self.names, self.count = {}, {}

    def add(self, thing):
        count = self.count[thing.title] = self.count.get(thing.title, 0) + 1
        self.names[thing] = thing.title if count == 1 else f"{thing.title}#{count}"


class Things:
    """What is there, in the order in which it came."""

    def __init__(self, root):
        self.root = root
        self.by_key = {root.key(): root}

    def __iter__(self):
        return iter(self.by_key.values())

    def add(self, thing):
        self.by_key[thing.key()] = thing

    def remove(self, thing):
        """Removes a thing, and closes all descriptors on it."""
        del self.by_key[thing.key()]
        for other in self:
            other.descriptors = {number: opened for number, opened in other.descriptors.items() if opened.file is not thing}

    def named(self, kind, name):
        return self.by_key.get((kind, None, name))

    def walk(self, path):
        lookups, directory, here = [], None, self.root
        for name in path.split("/")[1:] if path != "/" else []:
            if here is None or not here.facts.is_directory:
                return Walk(lookups, None, None)
            lookups.append(here)
            directory, here = here, self.by_key.get(("vnode", here, name))
        return Walk(lookups, directory, here)

    def with_process(self, process):
        """A process, and the pipes and sockets that go with it."""
        return [process] + [thing for thing in self if thing.kind in ("pipe", "socket") and thing.holder is process]
