#!/usr/bin/env python3
"""refusals.py FILE: looks why the prover refused each must-fail edit, in what rt ci printed, the file.

An edit stands for a wrong answer only if the prover refuses it for a fact: something that was to be
proved of the program and is not so. A proof that no longer fits the edited program (a step, a name or
a field that is not there) is refused as well, and says nothing; nor does a limit of the prover, or an
edit that cannot be applied or read, or one after which there is something to prove that nobody has
answered yet. So what rt ci says of each edit, the first error that is not about a name, must be of a kind
that says that a fact was not proved where a proof says why it should be. A line is printed for each edit
where it is not, and the exit status is then 1.
"""
import glob
import re
import sys

# The line of an edit: its crate and name, and what came of it.
LINE = re.compile(r"rt: must-fail ([a-z0-9_]+/[a-z0-9_]+)\.edit: (.*)")
REFUSED = "refused, as it must be: "

# The first line of an error, behind its place and the name of the declaration, when a fact fails.
UNPROVED = [
    r"`search`: no proof of ",
    r"`omega`: the goal does not follow from what it read",
    r"give a proof of that as the last argument",  # what `rw` leaves is not so
    r"list the missing equation",  # `cc` does not join the two sides
    r"(computed as far as they go|as printed), the two types (first )?differ ",
]
# Two types that differ: a fact too, where the expected one is a statement about the program's values, and not a need or
# a place of the proof (rt ci cuts the line, so its end may be missing).
EXPECTED = r"expected type `(?![^`]*(Need-|\.Lts\.[A-Z]))[^`]* "

def is_a_fact(said):
    error = re.match(r"\S*proofs/\S+:\d+:\d+: error: `[^`]+`: (.*)", said)
    return bool(error and any(re.match(kind, error.group(1)) for kind in [*UNPROVED, EXPECTED]))


def main(name):
    with open(name, encoding="utf-8", errors="replace") as file:
        said = dict(line.groups() for line in map(LINE.match, file) if line)
    wrong = []
    for edit in sorted(glob.glob("crates/*/must-fail/*.edit")):
        _, crate, _, name = edit[: -len(".edit")].split("/")
        edit = f"{crate}/{name}"
        if edit not in said:
            wrong.append(f"must-fail edit {edit}: rt ci says nothing of it")
        elif not said[edit].startswith(REFUSED) or not is_a_fact(said[edit][len(REFUSED) :]):
            wrong.append(f"must-fail edit {edit} is not refused for a fact: {said[edit]}")
    for line in wrong:
        print(line)
    return 1 if wrong else 0


if __name__ == "__main__":
    sys.exit(main(sys.argv[1]))
