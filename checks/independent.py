"""Holds the auditor to what it may take of the program that it judges: by the `use` lines and paths
of its crates, it calls nothing of the kernel's list of policies, its entities, plans, slots and
shared state, nor a policy; of these it has the small types that a history is made of, limits, and
what proofs cite. A line for each name that it may not use, then a count.

    checks/independent.sh
"""
import re
from pathlib import Path

CRATES = ["mf_answers", "mf_parties", "mf_audit", "mf_verdict"]
# What may be used of the crates that the program judged by them stands on. A crate that isn't here is
# one of values and texts, of definitions of answers, or of the auditor's own.
HISTORY = {"History", "Event", "EventList", "BootList", "KeptReply", "LentReply"}
ALLOWED = {
    "mf_objects": {"Head"},
    "mf_plan": {"Reply", "Payload", "LabelPart", "Loaded"},
    "mf_core": HISTORY | {"Phase", "Progress", "Turn"},
}
# What mf_verdict may use besides, which puts an audit and a text together. It reads the history by mf_hist's reader, whose clauses
# say what is read; and what it compares the sources with is made by the same fold and the same printing as in a run, so that part
# of a text isn't judged by a second implementation.
VERDICT = {
    "mf_flow": {"sources", "print_sources"},
    "mf_hist": {"read_history", "HistError"},
}
VALUES = {
    *("mf_errno", "mf_elem", "mf_text", "mf_names", "mf_cred", "mf_item", "mf_rule", "mf_compose"),
    *("mf_labeltext", "mf_calls", *CRATES),
}
# Of mf_policy mf_answers has types alone, since what that answers is said there too; and the player
# has the list of specs, and what is made of them besides answers.
POLICY = {
    "mf_answers": {"Spec", "Test", "PartitionTest"},
    "mf_audit": {
        *("Spec", "SpecList", "Registration", "Change", "Origin", "Sysctl", "labels_kind"),
        *("load_fault", "unload_fault", "registration_of", "new_label", "relabelled"),
        *("value_in", "wants_slot"),
    },
}
USED = re.compile(r"\b(mf_\w+)::(?:\{([^}]*)\}|(\w+|\*))|\buse (mf_\w+)\b(?!::)")


def code_of(path):
    """The text of a source without comments, contracts' imports and the modules of tests."""
    lines = path.read_text().split("\n")
    kept = [line for line in lines if not line.lstrip().startswith(("//", "ghost use"))]
    return "\n".join(kept)


def uses_of(path):
    for crate, several, one, whole in USED.findall(code_of(path)):
        for name in several.split(",") if several else [one or "*"]:
            if name.strip():
                yield crate or whole, name.strip().split(" ")[0]


def may_use(user, crate, name):
    if name in ("specs", "proofs") or name.isupper():
        return True
    if crate == "mf_policy":
        return name in POLICY.get(user, ())
    if user == "mf_verdict" and name in VERDICT.get(crate, ()):
        return True
    return crate in VALUES and name != "*" or name in ALLOWED.get(crate, ())


def main():
    passed, failed = 0, 0
    for user in CRATES:
        for path in sorted(Path("crates", user, "src").rglob("*.rt")):
            if path.stem == "tests":
                continue
            for crate, name in uses_of(path):
                allowed = may_use(user, crate, name)
                passed, failed = passed + allowed, failed + (not allowed)
                if not allowed:
                    print(f"independent: {path} uses {crate}::{name}")
    print(f"{passed} passed, {failed} failed")
    return 1 if failed or not passed else 0


if __name__ == "__main__":
    raise SystemExit(main())
