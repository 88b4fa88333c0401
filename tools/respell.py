#!/usr/bin/env python3
"""Spells the repository's own definitions, fields and lemmas as today's Rattle does. It was run once, right after
the kit's port.py, at the top of the repository, and is kept so that the run can be made again on the same commit.

- A word is in snake case: `costOf` is `cost_of`, `never-both` is `never_both`.
- A fact, which is a function to `Type 0`, is in upper camel case: `tableStates` is `TableStates`.
- Where a lemma or a field falls together with the definition that it speaks of, the lemma gets `_lem` and the field
  `_is` at its end (LEMMAS and FIELDS below), and so do the few that fall together otherwise (OTHERS).

What it leaves: names of the kit's libraries, the labels that Rattle makes of the source in a function's own proof
(a name declared at a type `tie.x` or `goal.x`, and what stands behind a dot there), everything in src/ but clauses and
`ghost use` lines, and prose outside code spans. It turns specs/, proofs/, the clauses of src/, and the code spans of
comments and of the pages. A second run changes nothing.
"""

import glob
import re

OWN = [
    line.split(":")[0].strip()
    for line in open("crates.txt", encoding="utf-8")
    if line.strip() and not line.startswith("#")
]

# The hyphened name is a lemma's, and the one in camel case is that of the definition.
LEMMAS = """by-refusal claim-meant fault-meant harvest-read idle-byte kind-meant kind-number lacks-slack needs-charge
no-slack-by record-length sheet-has sheet-length slot-says stepped-meant trailer-length where-given zero-or-less""".split()

# The hyphened name is a field's.
FIELDS = "first-job-back harvest-back latest-start smallest-end".split()

OTHERS = {
    # judge's PlanOrder has a fact `Applies` of its own
    "applies": "RefusalApplies",
    # judge's PlanOrder has a lemma `at_turn`
    "atTurn": "given_at_turn",
    # what lemmas call their own arguments
    "judged-plan": "plan_said",
    "judged-claim": "claim_said",
    "most-slots": "of_slots",
}

NAME = r"[^\s(){}.;,@\"«»:`]+"
USE = re.compile(r"^use ([^\s{]+)\.\{([^}]*)\}")
DECLARED = re.compile(rf"^( *)((?:pub |abbrev |unfoldable |record |data |ruleset )*)({NAME})((?: \{{[^{{}}\n]*\}}| \([^()\n]*\))*) : (.*)$")
TOKEN = re.compile(r"(?<![^\s(){}.;,@\"«»`\[\]|])[^\s(){}.;,@\"«»`\[\]|]+(?![^\s(){}.;,@\"«»`\[\]|])")
COMMENT = re.compile(r"(?m)(?:^|(?<=\s))--(?:\s.*)?$")
SPAN = re.compile(r"`[^`\n]+`")


def is_odd(name):
    """Whether a name is not in snake case."""
    return bool(re.search(r"[a-z0-9]-[a-z0-9]", name) or name[0].islower() and re.search(r"[a-z0-9][A-Z]", name))


def in_snake_case(name):
    return re.sub(r"(?<=[a-z0-9])([A-Z])", lambda m: "_" + m[1].lower(), name).replace("-", "_")


def in_camel_case(name):
    return "".join(word[0].upper() + word[1:] for word in re.split(r"[-_]", name))


def is_of_a_function(path):
    """Whether a file lies in the folder of a function's proof."""
    return bool(re.search(r"/proofs/.+/", path))


def read(path):
    with open(path, encoding="utf-8") as file:
        return file.read()


def names_of_libraries(text):
    """The names that a file imports from the kit's libraries."""
    names = set()
    for line in text.split("\n"):
        use = USE.match(line)
        if use and not re.match(rf"Rattle\.(?:{'|'.join(OWN)})\.", use[1] + "."):
            names |= {item.strip().split(" as ")[0] for item in use[2].split(",")}
    return names


def new_names(paths):
    """The table: each name that turns, with its new spelling."""
    made, table, of_libraries = set(), {}, set()
    for path in paths:
        of_libraries |= names_of_libraries(read(path))
        for line in read(path).split("\n"):
            declared = DECLARED.match(line)
            if not declared or line.lstrip().startswith(("use ", "--", "let ", "λ")):
                continue
            indent, _, name, _, of = declared.groups()
            if re.match(r"(tie|goal)\b", of):
                made.add(name)
            elif not indent and name[0].islower() and re.search(r"(^|→ )Type 0$", of.strip()):
                table[name] = in_camel_case(name)
            elif is_odd(name):
                table[name] = in_snake_case(name)
    for path in paths:
        if not is_of_a_function(path):
            for token in TOKEN.findall(COMMENT.sub("", read(path))):
                if is_odd(token) and token not in of_libraries and "/" not in token and "." not in token:
                    table.setdefault(token, in_snake_case(token))
    # A name that Rattle makes and that is declared nowhere else stays.
    for name in made - {n for n in table if n in table}:
        table.pop(name, None)
    table.update({name: in_snake_case(name) + "_lem" for name in LEMMAS})
    table.update({name: in_snake_case(name) + "_is" for name in FIELDS})
    table.update(OTHERS)
    return table


def turn(text, table, labels_stay):
    def one(match):
        token = match[0]
        if labels_stay and match.start() and text[match.start() - 1] == "." and text[match.start() - 2 : match.start()] != "..":
            return token
        return table.get(token, token)

    return TOKEN.sub(one, text)


def turn_spans(text, table):
    return SPAN.sub(lambda span: turn(span[0], table, False), text)


def turn_antt(path, text, table, fields):
    labels_stay = is_of_a_function(path)
    imported = names_of_libraries(text)
    here = {old: new for old, new in table.items() if old not in imported}
    if labels_stay:
        # what the file itself declares as Rattle's label stays
        for line in text.split("\n"):
            declared = DECLARED.match(line)
            if declared and re.match(r"(tie|goal)\b", declared[5]):
                here.pop(declared[3], None)
    lines = []
    for line in text.split("\n"):
        comment = re.search(r"(?:^|\s)--(?:\s|$)", line)
        code, rest = (line[: comment.start()], line[comment.start() :]) if comment else (line, "")
        code = turn(code, here, labels_stay)
        if labels_stay:
            code = re.sub(rf"(?<=\.)({NAME})", lambda m: fields.get(m[1], m[1]), code)
        lines.append(code + turn_spans(rest, table))
    return "\n".join(lines)


CLAUSE = re.compile(r"\b(?:requires|ensures)\b(?: \w+)? \{")


def turn_rt(text, table):
    out, at = [], 0
    while True:
        clause = CLAUSE.search(text, at)
        use = re.compile(r"ghost use [^;]*;").search(text, at)
        found = min((m for m in (clause, use) if m), key=lambda m: m.start(), default=None)
        if not found:
            break
        end = found.end()
        if found is clause:
            depth = 1
            while depth:
                depth += {"{": 1, "}": -1}.get(text[end], 0)
                end += 1
        out += [turn_comments(text[at : found.start()], table), turn(text[found.start() : end], table, False)]
        at = end
    return "".join(out) + turn_comments(text[at:], table)


def turn_comments(text, table):
    return re.sub(r"//.*", lambda m: turn_spans(m[0], table), text)


def page_names():
    pages = ["README.md", *glob.glob("*/*.md"), *glob.glob("docs/landings/*.md")]
    return {token for path in pages for span in SPAN.findall(read(path)) for token in TOKEN.findall(span)}


def record_fields(paths):
    fields = set()
    for path in paths:
        inside = None
        for line in read(path).split("\n"):
            record = re.match(r"^( *)(?:pub )?record ", line)
            if record:
                inside = len(record[1])
            elif inside is not None and line.strip():
                if len(line) - len(line.lstrip()) <= inside:
                    inside = None
                else:
                    field = re.match(rf"^ +(?:pub )?({NAME}) :", line)
                    if field:
                        fields.add(field[1])
    return fields


def main():
    antt = sorted(
        glob.glob("crates/*/specs/**/*.antt", recursive=True) + glob.glob("crates/*/proofs/**/*.antt", recursive=True)
    )
    table = new_names(antt)
    met = {}
    for old, new in table.items():
        met.setdefault(new, []).append(old)
    together = {new: olds for new, olds in met.items() if len(olds) > 1}
    if together:
        raise SystemExit(f"these fall together: {together}")
    words = {path: set(TOKEN.findall(read(path))) for path in antt}
    for old, new in table.items():
        meets = [path for path in antt if old in words[path] and new in words[path]]
        if meets:
            print(f"look: {old} meets {new} in {', '.join(meets)}")
    fields = {name: table[name] for name in record_fields(antt) if name in table}
    for path in antt:
        text = read(path)
        write(path, text, turn_antt(path, text, table, fields))
    for path in sorted(glob.glob("crates/*/src/**/*.rt", recursive=True)):
        text = read(path)
        write(path, text, turn_rt(text, table))
    # port.py turned some names of the repository's own, and no page.
    declared = {d[3] for path in antt for d in map(DECLARED.match, read(path).split("\n")) if d}
    table.update({t: in_snake_case(t) for t in page_names() if t not in table and is_odd(t) and in_snake_case(t) in declared})
    for path in ["README.md", *sorted(glob.glob("*/*.md") + glob.glob("docs/landings/*.md"))]:
        text = read(path)
        write(path, text, turn_spans(text, table))
    print(f"{len(table)} names")


def write(path, old, new):
    if new != old:
        with open(path, "w", encoding="utf-8") as file:
            file.write(new)


if __name__ == "__main__":
    main()
