"""What checks/report.sh does: the pages of tools/report, in a browser."""
from __future__ import annotations

import json
import random
import subprocess
import sys
import tempfile
from collections.abc import Callable
from pathlib import Path
from typing import Any

from browser import Browser

ROOT = Path(__file__).resolve().parent.parent
EXAMPLES = ("24-web-server", "35-stale-plan", "38-twelve-rules", "53-what-the-rules-withhold", "54-how-the-key-travelled")
WIDE, NARROW, HEIGHT = 1280, 390, 900
# The least contrast of letters and their ground, by the guidelines of the web for small text.
CONTRAST = 4.5
# The seconds of processor time in which a page opens, the least of some times: it depends on what else the machine does.
SECONDS, OPENINGS = 1.0, 5
TAB, ENTER = ("Tab", 9, ""), ("Enter", 13, "\r")

# What the page shows, as text
ROWS = "Array.from(document.querySelectorAll('.{table} tbody tr')).map(row => Array.from(row.cells).map(cell => cell.textContent))"
HISTORY = """Array.from(document.querySelectorAll('.history tbody tr')).map(row => ({
  line: row.cells[1].firstChild.textContent, mark: row.classList[0] || '', shown: row.offsetParent !== null,
  why: (row.querySelector('pre') || {textContent: ''}).textContent}))"""
MATRIX = """Array.from(document.querySelectorAll('.matrix table:not(.legend)')).flatMap(table => {
  const heads = Array.from(table.tHead.rows[0].cells).map(cell => cell.textContent);
  return Array.from(table.tBodies[0].rows).flatMap(row => Array.from(row.cells).slice(1).map(
    (cell, place) => `matrix proc:${heads[place + 1]} ${row.cells[0].textContent} ${cell.textContent}`)); })"""
# The first cells of the rows that are shown of a table.
FIRST = "Array.from(document.querySelectorAll('{table} tbody tr')).filter(row => row.offsetParent).map(row => row.cells[0].textContent)"
WAYS = "Array.from(document.querySelectorAll('#{telling} .way pre')).map(words => words.textContent)"
LIT = "Array.from(document.querySelectorAll('.thing.lit')).map(thing => thing.dataset.n).sort()"
# Letters of which the contrast with what is behind them is too small.
FAINT = """(() => {
  const parts = said => said.match(/[\\d.]+/g).map(Number);
  const light = said => { const [r, g, b] = parts(said).map(v => v / 255).map(v => v <= 0.03928 ? v / 12.92 : ((v + 0.055) / 1.055) ** 2.4);
    return 0.2126 * r + 0.7152 * g + 0.0722 * b; };
  const ground = part => { for (; part; part = part.parentElement) { const said = getComputedStyle(part).backgroundColor;
    if ((parts(said)[3] ?? 1) > 0) return said; } return 'rgb(255, 255, 255)'; };
  return Array.from(document.querySelectorAll('h1,h2,h3,p,td,th,a,pre,button,select,label')).filter(part => {
    const [one, other] = [light(getComputedStyle(part).color), light(ground(part))].sort();
    return part.offsetParent && (Math.max(one, other) + 0.05) / (Math.min(one, other) + 0.05) < %s;
  }).map(part => part.outerHTML.slice(0, 80)); })()""" % CONTRAST


class Counted:
    passed = failed = 0

    def that(self, what: str, found: object, wanted: object = True) -> None:
        if found == wanted:
            self.passed += 1
            return
        self.failed += 1
        print(f"report: {what}: {str(found)[:300]}, and not {str(wanted)[:300]}")


def printed(*words: str | Path, text: str = "") -> str:
    ran = subprocess.run(words, input=text, stdout=subprocess.PIPE, text=True, check=False, cwd=ROOT)
    return ran.stdout


class Texts:
    """What the program prints of a script, by which its page is judged."""

    def __init__(self, program: str, script: Path) -> None:
        self.script = script.read_text()
        self.order = "step" if "steps" in self.script.split("\n") else "run"
        whole = self.told(program, "why") or printed(program, self.order, text=self.script)
        self.lines = whole.split("\n")[:-1]
        chains = self.told(program, "chains")
        matrix = self.told(program, "matrix")
        self.matrix = [line for line in matrix.split("\n") if line.startswith("matrix ")]
        reach = self.told(program, "reach").split("\n")
        self.reach, self.relabels = ([line for line in reach if line.startswith(f"{kind} ")] for kind in ("reach", "relabels"))
        self.chains = printed("tools/chains", script, text=chains) if "\nchain " in chains else ""

    def told(self, program: str, word: str) -> str:
        """What is told behind the history, nothing where the program has no such word."""
        said = printed(program, self.order, word, text=self.script)
        if said.startswith("macsim: usage") and self.order == "run":
            said = printed(program, word, text=self.script)
        return "" if said.startswith("macsim: usage") else said

    def of(self, *kinds: str) -> list[str]:
        return [line for line in self.lines if line.split(" ")[0] in kinds]

    def history(self) -> list[str]:
        return self.of("boot", "enter", "done", "leave", "changed", "waits", "stale")

    def denied(self) -> list[str]:
        return [line for line in self.of("done", "changed") if " no " in line and not line.endswith(" - -")]

    def ways(self) -> list[str]:
        """Each chain with the words below it."""
        return [f"chain {way}".rstrip("\n") for way in f"\n{self.chains}".split("\nchain ")[1:]]


# The checks of one page


def shows_the_texts(browser: Browser, texts: Texts, name: str, count: Counted) -> None:
    history = browser.value(HISTORY)
    count.that(f"{name}: the script", [row[1] for row in browser.value(ROWS.format(table="script"))], texts.script.split("\n")[:-1])
    count.that(f"{name}: the history", [row["line"] for row in history], texts.history())
    count.that(f"{name}: what is marked as denied", [row["line"] for row in history if row["mark"] == "no"], texts.denied())
    whys = [line for row in history for line in row["why"].split("\n") if line]
    count.that(f"{name}: why", whys, texts.of("lowered", "let", "denied", "why", "also"))
    count.that(f"{name}: the sources", [f"source {' '.join(row)}" for row in browser.value(ROWS.format(table="sources"))], texts.of("source"))
    count.that(f"{name}: the matrix", sorted(browser.value(MATRIX)), sorted(texts.matrix))
    count.that(f"{name}: the chains", browser.value(WAYS.format(telling="chains")), texts.ways())
    count.that(f"{name}: reach", [way.split("\n")[0] for way in browser.value(WAYS.format(telling="reach"))], texts.reach)
    relabels = [f"relabels {' '.join(row)}" for row in browser.value(ROWS.format(table="relabels"))]
    count.that(f"{name}: who may relabel what", relabels, texts.relabels)


def things_of(way: str) -> list[str]:
    """The things of a chain, by its words: whom each step hands it to and from."""
    return sorted({word.rstrip(",") for line in way.split("\n")[1:] for word in line.rpartition(", line ")[0].split() or line.split() if ":" in word})


def lights_its_ways(browser: Browser, texts: Texts, name: str, count: Counted) -> None:
    """Each of some ways lights its things and no others, one way at a time."""
    ways = texts.ways()
    for place in range(0, len(ways), max(1, len(ways) // 6)):
        browser.value(f"document.querySelectorAll('#chains .way').forEach((way, place) => {{ way.id = `way${{place}}`; }})")
        browser.click(f"#way{place} .more")
        browser.value("new Promise(done => setTimeout(done, 50))")
        picture = f"#way{place}".join(["document.querySelector('", "').closest('.picture')"])
        lit = browser.value(LIT.replace("document.", f"{picture}.", 1))
        drawn = browser.value(f"Array.from({picture}.querySelectorAll('.thing')).map(thing => thing.dataset.n)")
        count.that(f"{name}: what is lit of {ways[place]}", lit, [thing for thing in things_of(ways[place]) if thing in drawn])
        count.that(f"{name}: the ways that are open", browser.value(f"{picture}.querySelectorAll('.way.open').length"), 1)


def choose(browser: Browser, filter_name: str, said: str) -> None:
    browser.value(
        f"(() => {{ const choice = document.querySelector('select[name={filter_name}]');"
        f" choice.value = Array.from(choice.options).find(option => option.textContent === {json.dumps(said)}).value;"
        f" choice.dispatchEvent(new Event('change', {{bubbles: true}})); }})()"
    )


def shown(browser: Browser) -> list[str]:
    return [row["line"] for row in browser.value(HISTORY) if row["shown"]]


def filters(browser: Browser, texts: Texts, name: str, count: Counted) -> None:
    tasks = list(dict.fromkeys(line.split(" ")[1] for line in texts.of("enter", "changed")))
    choose(browser, "task", tasks[0])
    of_task = [line for line in texts.history() if line.split(" ")[0] != "boot" and line.split(" ")[1] == tasks[0]]
    count.that(f"{name}: the lines of task {tasks[0]}", shown(browser), of_task)
    browser.click("input[name=denied]")
    count.that(f"{name}: its denied lines", shown(browser), [line for line in of_task if line in texts.denied()])
    browser.click("button[type=reset]")
    browser.value("new Promise(done => setTimeout(done, 50))")
    count.that(f"{name}: all lines again", shown(browser), texts.history())
    module = texts.of("boot")[0].split(" ")[1]
    choose(browser, "module", module)
    found = shown(browser)
    count.that(f"{name}: the lines of {module} have its denials", [line for line in texts.denied() if f" {module} " in line and line not in found], [])
    policies = set(browser.value(FIRST.format(table=".sources")))
    count.that(f"{name}: the sources of {module}", policies <= {module.removeprefix("mac_")})
    browser.click("button[type=reset]")
    browser.value("new Promise(done => setTimeout(done, 50))")


def filters_things(browser: Browser, texts: Texts, name: str, count: Counted) -> None:
    if not texts.matrix:
        return
    thing = texts.matrix[0].split(" ")[2]
    choose(browser, "thing", thing)
    rows = browser.value(FIRST.format(table=".matrix table:not(.legend)"))
    count.that(f"{name}: the rows of {thing} in the matrix", rows, [thing])
    browser.click("button[type=reset]")
    browser.value("new Promise(done => setTimeout(done, 50))")
    count.that(f"{name}: the whole matrix again", len(browser.value(MATRIX)), len(texts.matrix))


def goes_by_keys(browser: Browser, texts: Texts, name: str, count: Counted) -> None:
    browser.press(*TAB)
    count.that(f"{name}: what Tab comes to first", browser.value("document.activeElement.className"), "skip")
    denied = texts.denied()
    if denied:
        browser.press("n", 78, "n")
        count.that(f"{name}: what n goes to", browser.value("document.querySelector('tr:target').cells[1].firstChild.textContent"), denied[0])
    for part in (".way .more", ".history .more"):
        found = f"(part => part && part.nextElementSibling.offsetParent !== null)(document.querySelector('{part}'))"
        was = browser.value(found)
        browser.value(f"document.querySelector('{part}')?.focus()")
        browser.press(*ENTER)
        count.that(f"{name}: what Enter opens of {part}", browser.value(found), None if was is None else not was)


def is_well_laid(browser: Browser, page: Path, name: str, count: Counted, folder: Path | None) -> None:
    """Dark and light, wide and narrow, and printed."""
    grounds = set()
    for scheme in ("light", "dark"):
        for width in (WIDE, NARROW):
            browser.look(width, HEIGHT, scheme)
            browser.open(page)
            grounds.add(browser.value("getComputedStyle(document.body).backgroundColor"))
            count.that(f"{name}: letters that are faint, {scheme}", browser.value(FAINT), [])
            count.that(f"{name}: it is no wider than {width}", browser.value("document.documentElement.scrollWidth") <= width)
            if folder is not None:
                browser.value("document.querySelectorAll('.history tr.no').forEach(row => row.classList.add('open'))")
                browser.value("document.querySelector('.way:nth-child(3) .more')?.click()")
                browser.look(width, min(5000, browser.height()), scheme)
                browser.value("new Promise(done => setTimeout(done, 300))")
                browser.shoot(folder / f"{name}-{scheme}-{width}.png")
    count.that(f"{name}: two grounds", len(grounds), 2)
    browser.look(WIDE, HEIGHT, "dark", "print")
    browser.open(page)
    closed = "Array.from(document.querySelectorAll('pre')).filter(part => part.getBoundingClientRect().height === 0).length"
    count.that(f"{name}: what isn't printed", browser.value(closed), 0)
    count.that(f"{name}: the ground of what is printed", browser.value("getComputedStyle(document.body).backgroundColor"), "rgb(255, 255, 255)")
    if folder is not None:
        browser.print(folder / f"{name}.pdf")


def is_readable_without_scripts(browser: Browser, page: Path, texts: Texts, name: str, count: Counted) -> None:
    browser.has_scripts(False)
    browser.open(page)
    # (what is evaluated from here runs also where the page's own scripts don't)
    count.that(f"{name}: the filter without scripts", browser.value("document.querySelector('form').offsetParent"), None)
    shows_the_texts(browser, texts, f"{name}, without scripts", count)
    for part in (".way .more", ".history .more"):
        if browser.value(f"document.querySelector('{part}') !== null"):
            browser.click(part)
            count.that(f"{name}: what {part} opens without scripts", browser.value(f"document.querySelector('{part}').nextElementSibling.offsetParent !== null"))
    browser.has_scripts(True)


def judge(browser: Browser, page: Path, texts: Texts, name: str, count: Counted, folder: Path | None) -> None:
    browser.look(WIDE, HEIGHT)
    steps: list[Callable[..., Any]] = [goes_by_keys, shows_the_texts, filters, filters_things, lights_its_ways]
    for step in steps:
        browser.open(page)
        step(browser, texts, name, count)
        count.that(f"{name}: what it complains of", browser.faults(), [])
    is_well_laid(browser, page, name, count, folder)
    browser.look(WIDE, HEIGHT)
    is_readable_without_scripts(browser, page, texts, name, count)


# A large page, and one of several tasks


def large_script() -> str:
    """16 tasks and 10,000 lines."""
    choice = random.Random(1)
    lines = ["boot mac_biba", "boot mac_mls", "file /d dir uid 0 gid 0 mode 755 label -"]
    label = lambda: f"biba/{choice.randint(1, 9)},mls/{choice.randint(1, 9)}"
    lines += [f"file /d/f{number} reg uid 0 gid 0 mode 644 label {label()} text x" for number in range(200)]
    for task in range(16):
        calls = [choice.choice(("read /d/f{0}", "stat /d/f{0}", "write /d/f{0} x")).format(choice.randrange(200)) for _ in range(611)]
        lines += [f"task t{task} uid {1000 + task} gid 20 label {label()}", *calls, "end"]
    return "".join(f"{line}\n" for line in lines)


def spent_on(browser: Browser, page: Path) -> float:
    browser.open(page)
    return browser.spent()


def opens_in_time(browser: Browser, folder: Path, program: str, count: Counted) -> None:
    script, page = folder / "large.macsim", folder / "large.html"
    script.write_text(large_script())
    printed("tools/report", "--program", program, script, "-o", page)
    browser.look(WIDE, HEIGHT)
    spent = min(spent_on(browser, page) for _ in range(OPENINGS))
    print(f"report: a page of {len(large_script().splitlines())} lines of a script opens in {spent:.2f} s of processor time")
    count.that("a large page opens in a second", spent < SECONDS)
    browser.click("input[name=denied]")
    count.that("its denied lines alone", browser.value("document.querySelectorAll('.history tr.no:not([hidden])').length > 1000"))


def is_of_one_run(browser: Browser, folder: Path, program: str, count: Counted) -> None:
    """Where several tasks run, the history and the sources are those of one run."""
    script, page = ROOT / "examples" / "10-two-tasks.macsim", folder / "two.html"
    printed("tools/report", "--program", program, script, "-o", page)
    browser.open(page)
    lines = [row["line"] for row in browser.value(HISTORY)] + [f"source {' '.join(row)}" for row in browser.value(ROWS.format(table="sources"))]
    text = folder / "two.text"
    text.write_text("".join(f"{line}\n" for line in lines))
    count.that("the page of two tasks is of a run", printed("tools/check-run", "--program", program, script, text), "yes\n")


def main(folder: Path | None) -> int:
    program, count = printed("./macsim", "--path").strip(), Counted()
    browser = Browser()
    with tempfile.TemporaryDirectory() as room:
        for name in EXAMPLES:
            script, page = ROOT / "examples" / f"{name}.macsim", Path(room) / f"{name}.html"
            printed("tools/report", "--program", program, script, "-o", page)
            judge(browser, page, Texts(program, script), name, count, folder)
        is_of_one_run(browser, Path(room), program, count)
        opens_in_time(browser, Path(room), program, count)
    browser.close()
    print(f"{count.passed} passed, {count.failed} failed")
    return 0 if count.passed and not count.failed else 1


sys.exit(main(Path(sys.argv[1]) if len(sys.argv) > 1 else None))
