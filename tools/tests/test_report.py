"""tools/report: what it makes of the lines of a program, of one that knows more words too, and what it refuses; and the picture of ways."""
import os
import re
import subprocess
import tempfile
import unittest
from pathlib import Path

from making import TOOLS

from macsim_report_graph import Graph, picture
from macsim_report_layout import columns_of
from macsim_report_ways import Hop

SCRIPT = """boot mac_biba
file /a reg uid 0 gid 0 mode 644 label biba/low
task t uid 0 gid 0 label biba/high
read /a
end
"""
HISTORY = """boot mac_biba 0
enter t
done t 1 no EACCES vnode_open_read mac_biba 2
leave t
source biba vnode:/ high
source biba vnode:/a low
source biba proc:t high
"""
WHY = """denied t 1 2 vnode_open_read proc:t vnode:/a
why t 1 mac_biba decides EACCES observe subject high object low
"""
CHAINS = """chain biba vnode:/ high 0@0
chain biba vnode:/a low 1@0
chain biba proc:t high 2@0
"""
REACH = """reach vnode:/a proc:t t vnode_open_read proc:t
relabels vnode:/a t
"""
# A program that prints a file of the name of its words, and else doesn't know them. Of `.status` it takes its status.
PROGRAM = """#!/bin/sh
cat >/dev/null
name=$(dirname "$0")/$(echo "$*" | tr ' ' -)
[ -e "$name" ] || { echo 'macsim: usage'; exit 2; }
cat "$name"
[ ! -e "$name.status" ] || exit "$(cat "$name.status")"
"""


class Made:
    """What a report of such a program came to."""

    def __init__(self, *words: str, script: str = SCRIPT, statuses: dict[str, int] | None = None, **texts: str) -> None:
        with tempfile.TemporaryDirectory() as folder:
            files = {"program": PROGRAM, "script": script, **{name.replace("_", "-"): text for name, text in texts.items()}}
            files |= {f"{name}.status": str(status) for name, status in (statuses or {}).items()}
            for name, text in files.items():
                Path(folder, name).write_text(text)
            os.chmod(f"{folder}/program", 0o755)
            command = [TOOLS / "report", "--program", f"{folder}/program", *words, f"{folder}/script", "-o", f"{folder}/page"]
            ran = subprocess.run(command, capture_output=True, text=True, check=False)
            self.status, self.said = ran.returncode, ran.stderr
            self.page = Path(folder, "page").read_text() if Path(folder, "page").exists() else None

    def sections(self) -> list[str]:
        return re.findall(r'<section id="(\w+)"', self.page or "")


class Pages(unittest.TestCase):
    def refuses(self, said: str, **texts: str) -> None:
        made = Made(**texts)
        self.assertEqual((made.status, made.page), (2, None), made.said)
        self.assertIn(said, made.said)

    def test_a_program_of_few_words(self) -> None:
        made = Made(run=HISTORY)
        self.assertEqual((made.status, made.said), (0, ""))
        self.assertEqual(made.sections(), ["script", "history", "sources"])
        self.assertNotIn('<pre>', made.page or "")

    def test_a_program_of_all_words(self) -> None:
        made = Made(run=HISTORY, run_why=HISTORY + WHY, run_chains=HISTORY + CHAINS, run_reach=HISTORY + REACH)
        self.assertEqual((made.status, made.said), (0, ""))
        self.assertEqual(made.sections(), ["script", "history", "sources", "chains", "reach"])
        denied, why = WHY.split("\n")[:2]
        self.assertIn(f'<a class="more" href="#e3">why</a><pre>{denied}\n<b>{why}</b></pre>', made.page or "")
        self.assertIn("vnode:/a to proc:t: 1 hop", made.page or "")
        self.assertIn("<td>vnode:/a</td><td>t</td>", made.page or "")

    def test_short_words_and_too_many(self) -> None:
        made = Made(run=HISTORY, chains=f"{HISTORY}macsim: too many chains\n", statuses={"chains": 11})
        self.assertEqual(made.sections(), ["script", "history", "sources", "chains"])
        self.assertIn("too many chains to be printed (status 11)", made.page or "")

    def test_another_order(self) -> None:
        """What is told of another order isn't shown."""
        other = HISTORY.replace("leave t\n", "leave t\nenter u\n")
        made = Made(run=HISTORY, chains=other + CHAINS)
        self.assertIn("in none of 20 runs", made.page or "")
        made = Made(run=HISTORY, chains=other + CHAINS, step_chains=HISTORY + CHAINS)
        self.assertNotIn("in none of 20 runs", made.page or "")
        self.assertIn("mac_biba: 3 chains", made.page or "")

    def test_it_is_all_escaped(self) -> None:
        script = SCRIPT.replace("boot", "# <script>alert(1)</script> & $title\nboot")
        made = Made(run=HISTORY, script=script)
        self.assertIn("# &lt;script&gt;alert(1)&lt;/script&gt; &amp; $title", made.page or "")

    def test_what_it_refuses(self) -> None:
        self.refuses("doesn't know the word run")
        self.refuses("script line 4: there is no call `raed`", run=HISTORY, script=SCRIPT.replace("read", "raed"))
        self.refuses("the next call of task t is not that", run=HISTORY.replace("done t 1", "done t 2"))
        self.refuses("line 8: no line of why", run=HISTORY, run_why=f"{HISTORY}why t\n")
        self.refuses("it tells why of line 2 of task t", run=HISTORY, run_why=HISTORY + WHY.replace("t 1", "t 2"))
        self.refuses("line 8: no line of a chain", run=HISTORY, chains=f"{HISTORY}chain biba\n")
        self.refuses("line 8: it doesn't end at vnode:/", run=HISTORY, run_reach=f"{HISTORY}reach vnode:/a vnode:/ t vnode_open_read proc:t\n")


class Pictures(unittest.TestCase):
    def test_it_goes_to_the_right(self) -> None:
        columns, back = columns_of([("a", "p"), ("b", "p"), ("p", "c"), ("c", "p")])
        self.assertEqual([sorted(column) for column in columns], [["a", "b"], ["p"], ["c"]])
        self.assertEqual(back, {("c", "p")})

    def test_each_edge_is_drawn_once(self) -> None:
        graph = Graph([Hop("vnode:/a", "proc:t", "read"), Hop("proc:t", "vnode:/b", "write"), Hop("vnode:/a", "proc:t", "stat")])
        drawn = picture(graph, "ways")
        self.assertEqual(drawn.count('class="edge"'), 2)
        self.assertEqual(graph.numbers_of([Hop("proc:t", "vnode:/b", "")]), [1])
        self.assertIn("vnode:/a to proc:t\nread\nstat", drawn)
        self.assertIn("read and 1 more", drawn)

    def test_a_thing_that_gives_to_itself(self) -> None:
        self.assertIn("proc:t to proc:t", picture(Graph([Hop("proc:t", "proc:t", "setpmac")]), "ways"))
