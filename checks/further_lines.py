"""The lines that `matrix`, `chains` and `why` write behind the text of a run, and what is wrong with them by
matrix_rules.py, chain_rules.py and why_rules.py."""
from chain_rules import Chain, Chains, Followed, Judge
from macsim_labels import element_of
from matrix_rules import Matrix
from why_rules import Fault, Why


def parted(printed, word):
    """The text of a run, and the further lines of a word of the program."""
    lines = printed.splitlines(keepends=True)
    first = next((place for place, line in enumerate(lines) if line.split(" ")[0] in FURTHER[word][0]), len(lines))
    return "".join(lines[:first]), [line.removesuffix("\n") for line in lines[first:]]


def difference(told, wanted):
    """The first line that differs, as a text, or None."""
    for number in range(max(len(told), len(wanted))):
        if told[number : number + 1] != wanted[number : number + 1]:
            return f"line {number + 1}: {told[number : number + 1]} in place of {wanted[number : number + 1]}"
    return None


def chain_read(word):
    origin, *steps = word.split()
    party, event = origin.split("@")
    read = [(receiver, *moment.split(".")) for receiver, moment in (step.split("@") for step in steps)]
    return Chain(int(party), int(event), [tuple(map(int, step)) for step in read])


def wants_chains(printed):
    """What chains the lines of sources want: policy, title and element of each."""
    sources = [line.split() for line in printed.splitlines() if line.startswith("source ")]
    return [(policy, title, element) for _, policy, title, elements in sources if elements != "-" for element in elements.split(",")]


def fault_of_chains(given, printed, lines, name):
    """What is wrong with the lines of chains behind the text of a run of a script, or None."""
    followed = Followed(given, printed, name)
    rows = [line.split(" ", 4) for line in lines]
    if [tuple(row[1:4]) for row in rows] != wants_chains(printed):
        return "the chains aren't those of the lines of sources, in their order"
    ids = {thing.title: followed.ids[thing] for thing in followed.replay.things}
    judges = {module: Judge(followed.happened[module]) for module in followed.modules}
    for row in rows:
        if not judges[f"mac_{row[1]}"].accepts(ids[row[2]], element_of(row[3]), chain_read(row[4])):
            return f"no chain: {' '.join(row)}"
    return difference(lines, list(Chains(followed).lines()))


def fault_of_matrix(given, printed, lines, name):
    return difference(lines, list(Matrix(Followed(given, printed, name)).lines()))


def fault_of_why(given, printed, lines, name):
    try:
        return difference(lines, Why(given, printed, name).lines)
    except Fault as fault:
        return str(fault)


# For each word of the program the first words of its further lines, and what is wrong with them.
FURTHER = {
    "chains": (("chain",), fault_of_chains),
    "matrix": (("matrix",), fault_of_matrix),
    "why": (("lowered", "let", "denied", "why", "also"), fault_of_why),
}


def fault_of_lines(word, given, printed, lines, name):
    """What is wrong with the further lines of a word behind the text of a run of a script, or None."""
    return FURTHER[word][1](given, printed, lines, name)
