"""The reduction of a tree, and names."""
import random
import unittest

import making  # noqa: F401 (the way to the tools)

from macsim_host_files import Attributes, Kind
from macsim_host_processes import Credential, Process
from macsim_host_remarks import Remarks
from macsim_host_script import file_lines, paths_of, tasks_of, within_limits
from macsim_host_tree import Node, Reducer, Reduction, all_of, count_of, keep, left_of, reduced, stand_in, tree_of

DIRECTORY, FILE = Attributes(Kind.DIRECTORY, 0, 0, 0o755, "-"), Attributes(Kind.REGULAR, 0, 0, 0o644, "-")
OTHER = Attributes(Kind.DIRECTORY, 80, 0, 0o755, "biba/10")


def random_tree(seed: int) -> dict[str, Attributes]:
    """A tree of few kinds of files and directories, so that many are alike."""
    chance = random.Random(seed)
    files = {"/": DIRECTORY}
    directories = ["/"]
    for number in range(chance.randrange(1, 60)):
        path = f"{chance.choice(directories).rstrip('/')}/{number}"
        files[path] = chance.choice([DIRECTORY, OTHER, FILE, Attributes(Kind.REGULAR, chance.choice([0, 80]), 0, 0o600, "-")])
        directories += [path] if files[path].kind is Kind.DIRECTORY else []
    return files


def way(node: Node) -> list[Attributes]:
    """The attributes of a node and of the directories on its way, without those that are like their own directory."""
    found: list[Attributes] = [node.attributes]
    while node.parent is not None:
        node = node.parent
        if node.attributes != found[-1]:
            found.append(node.attributes)
    return found


class Trees(unittest.TestCase):
    def test_each_is_told_by_one_that_is_like_it(self) -> None:
        for seed in range(200):
            for reduction in Reduction:
                root = tree_of(random_tree(seed))
                Reducer(reduction).reduce(root)
                left = {root, *(node for node, _ in left_of(root))}
                self.assertEqual(count_of(root), len(all_of(root)))
                for node in all_of(root):
                    own = stand_in(node)
                    self.assertIn(own, left)
                    self.assertEqual(own.attributes, node.attributes)
                    self.assertEqual(way(own), way(node))
                    self.assertTrue(reduction is not Reduction.NONE or own is node)

    def test_of_those_that_are_alike_one_is_left(self) -> None:
        root = tree_of({"/": DIRECTORY, "/d": OTHER, "/d/a b": FILE, "/d/c": FILE, "/e": OTHER, "/e/x": FILE, "/f": OTHER})
        self.assertEqual(reduced(root, False, 256, 8), Reduction.ALIKE)
        self.assertEqual(file_lines(*self.written(root))[:3], ["# /d stands for 2 more: e", f"file /d {OTHER.words()}", "# /d/c stands for 1 more: a\\x20b"])

    def written(self, root: Node) -> tuple[list[Node], dict[Node, str]]:
        nodes = within_limits(root, Remarks())
        return nodes, paths_of(root, nodes)

    def test_what_is_kept(self) -> None:
        root = tree_of({"/": DIRECTORY, "/a": FILE, "/b": FILE, "/c": FILE})
        self.assertTrue(keep(root, "/b"))
        self.assertFalse(keep(root, "/d"))
        reduced(root, False, 256, 8)
        self.assertEqual([node.path for node, _ in left_of(root)], ["/a", "/b"])

    def test_directories_go_only_where_a_limit_forces_it(self) -> None:
        deep = "/a/b/c/d/e/f/g/h"
        files = {"/": DIRECTORY} | {deep[: 2 * depth]: DIRECTORY for depth in range(1, 9)}
        self.assertEqual(reduced(tree_of(files | {"/a/z": FILE}), False, 256, 8), Reduction.ALIKE)
        root = tree_of(files | {f"{deep}/i": FILE})
        self.assertEqual(reduced(root, False, 256, 8), Reduction.RAISED)
        self.assertEqual(file_lines(*self.written(root)), [f"# /i is {deep}/i", f"file /i {FILE.words()}"])

    def test_names_that_no_script_has(self) -> None:
        names = ["a_b", "a b", "a\xe4b", "x" * 40, "x" * 32, "..."]
        root = tree_of({"/": DIRECTORY} | {f"/{name}": Attributes(Kind.REGULAR, uid, 0, 0, "-") for uid, name in enumerate(names)})
        reduced(root, True, 256, 8)
        nodes, paths = self.written(root)
        wanted = ["/a_b", "/a_b-2", "/a_b-3", f"/{'x' * 30}-2", f"/{'x' * 32}", "/..."]
        self.assertEqual({node.name: paths[node] for node in nodes}, dict(zip(names, wanted)))
        self.assertIn("# /a_b-3 is /a\\xe4b", file_lines(nodes, paths))

    def test_more_than_a_script_has(self) -> None:
        remarks = Remarks()
        root = tree_of({"/": DIRECTORY} | {f"/{number}": Attributes(Kind.REGULAR, number, 0, 0, "-") for number in range(300)})
        reduced(root, False, 256, 8)
        self.assertEqual(len(within_limits(root, remarks)), 256)
        self.assertEqual(len(remarks.all()), 1)


class Tasks(unittest.TestCase):
    def test_a_task_for_each_kind(self) -> None:
        rows = [(7, "nginx", 80, "-"), (8, "nginx", 80, "-"), (9, "nginx", 0, "-"), (10, "my sh", 80, "biba/5"), (11, "my_sh", 1, "-"), (12, "setup", 2, "-")]
        processes = [Process(pid, name, Credential((uid, uid, uid), (uid,)), label) for pid, name, uid, label in rows]
        self.assertEqual([task.name for task in tasks_of(processes, False)], ["nginx", "nginx-7", "my_sh", "my_sh-11", "setup-12"])
        self.assertEqual(len(tasks_of(processes, True)), 6)
