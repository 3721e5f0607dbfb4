#!/usr/bin/env python3
"""Brings the names of definitions and lemmas to one spelling: values and lemmas in snake case, a dash where a name joins two names.

usage: tools/respell.py [--table]     at the top of the repository; --table prints the table and writes nothing

Run once, over files that were just brought over from the older spelling. It turns whole names in specs/ and proofs/, in the clauses,
`ghost use` items and comments of src/, and in the code spans of README.md and docs/. Names of source functions, types and modules stay.
"""

import collections
import os
import re
import sys

WORD = re.compile(r'[^\s(){}.;,@"«»`\[\]]+')
DECLARED = re.compile(
    r"^\s*(?:(?:abbrev|unfoldable)\s+)?(?:pub\s+)?(?:(?:data|record|ruleset)\s+)?"
    r"(?:(?:abbrev|unfoldable)\s+)?([^\s:(){}\[\],;=.]+)\s*(?:\([^)]*\)\s*|\{[^}]*\}\s*)*:(?!:)"
)
# What the prover makes of a function has names of its own.
MADE = re.compile(r"^(invariant-loop|decreases-loop|Need-|At-|After-|In-|Then|Else|returns|show-requires|length-[pxyq]s?$|p-is$|q-is$|returned-2)")
# Where two names fall together the lemma gets another word, or the two were one name in two modules.
APART = {
    "bits-of": "bits_of_lem",
    "firstByte": "lead_byte",
    "givesUp": "gave_up",
    "in-spi": "in_spi_lem",
    "is-busy": "is_busy_lem",
    "is-register": "is_register_lem",
    "send-status": "send_status_call",
    "size_fits": "size_fits_lem",
    "source-shut": "source_shut_lem",
}
# One name in two modules that never meet.
MEET_NOT = {"same_length"}


def texts(*ends):
    for folder, dirs, files in os.walk("crates"):
        dirs[:] = sorted(d for d in dirs if d != "out")
        for name in sorted(files):
            if name.endswith(ends):
                yield os.path.join(folder, name)


def read(path):
    with open(path, encoding="utf-8", newline="") as it:
        return it.read()


def snake(word):
    if re.fullmatch(r"[A-Z0-9_-]+", word) and "-" in word:
        return word.replace("-", "_")
    if not word or word[0].isupper():
        return word
    return re.sub(r"(?<=[a-z0-9])([A-Z])", lambda m: "_" + m.group(1).lower(), word)


def declared():
    """The names that specs/ and proofs/ declare, each with the folders that do."""
    names = collections.defaultdict(set)
    for path in texts(".antt"):
        for line in read(path).split("\n"):
            if line.lstrip().startswith(("--", "use ")):
                continue
            m = DECLARED.match(line)
            if m and not MADE.match(m.group(1)):
                names[m.group(1)].add("specs" if "/specs/" in path else "proofs")
    return names


def imported():
    """The names that files take from the library."""
    found = set()
    for path in texts(".antt", ".rt"):
        for m in re.finditer(r"^(?:ghost )?use ([^\s.]+)[^;\n{]*\{([^}]*)\}", read(path), re.M):
            if m.group(1) in ("mathlib", "Prim", "native", "borrow", "lib", "mir", "prog", "types", "denote") or m.group(0).split("use ")[1].startswith("Rattle.std"):
                found |= {x.strip().split(" as ")[-1] for x in m.group(2).split(",")}
    return found


def table():
    names = declared()
    library = imported()
    plain = {n for n in names if "-" not in n} | library
    subjects = {snake(n) for n in plain if not n.startswith("◌")}
    rows = {}
    for name in names:
        parts = name.split("-")
        if re.fullmatch(r"[A-Z0-9_-]+", name) or len(parts) == 1:
            new = snake(name)
        else:
            new = snake(parts[0])
            if parts[-1] == "spec":
                rows[name] = name.replace("-", "_")
                continue
            for part in parts[1:]:
                part = snake(part)
                # a dash joins two names, a plain word is added with _
                joins = part in subjects and part not in ("same", "by", "is", "of", "in", "no", "at", "on", "all", "spec") and new in subjects | {x.split("-")[0] for x in rows.values()}
                new += ("-" if joins else "_") + part
        rows[name] = APART.get(name, new)
    rows = {a: b for a, b in rows.items() if a != b}
    taken = collections.defaultdict(set)
    for name in names:
        taken[rows.get(name, name)].add(name)
    for name in library:
        taken[name].add(name)
    clashes = {b: sorted(a) for b, a in taken.items() if len(a) > 1 and b not in MEET_NOT}
    return rows, clashes


def turned(text, rows):
    return WORD.sub(lambda m: rows.get(m.group(0), m.group(0)), text)


def in_antt(text, rows):
    out = []
    for line in text.split("\n"):
        code, dash, note = line, "", ""
        m = re.search(r"(?:^|(?<=\s))--(?=\s|$)", line)
        if m:
            code, dash, note = line[: m.start()], "--", line[m.end() :]
        note = re.sub(r"`[^`]*`", lambda m: turned(m.group(0), rows), note)
        out.append(turned(code, rows) + dash + note)
    return "\n".join(out)


def in_clauses(text, rows):
    out, depth = [], 0
    for line in text.split("\n"):
        bare = line.lstrip()
        if bare.startswith("//"):
            line = re.sub(r"`[^`]*`", lambda m: turned(m.group(0), rows), line)
        elif bare.startswith("ghost use "):
            line = turned(line, rows)
        elif depth or re.match(r"(requires|ensures)\b", bare):
            line = turned(line, rows)
            depth += line.count("{") - line.count("}")
        out.append(line)
    return "\n".join(out)


def in_page(text, rows):
    return re.sub(r"`[^`\n]*`", lambda m: turned(m.group(0), {a: b for a, b in rows.items() if not re.fullmatch(r"[a-z]+", a)}), text)


def main(words):
    rows, clashes = table()
    if "--table" in words:
        for a, b in sorted(rows.items()):
            print(f"{a}\t{b}")
    for new, olds in sorted(clashes.items()):
        print(f"fall together: {', '.join(olds)} -> {new}", file=sys.stderr)
    if "--table" in words:
        return 0
    if clashes:
        return 1
    changed = 0
    pages = [p for p in ("README.md", "docs/MODEL.md", "docs/DECISIONS.md", "docs/EXTENDING.md") if os.path.exists(p)]
    for path in [*texts(".antt", ".rt"), *pages]:
        old = read(path)
        how = in_antt if path.endswith(".antt") else in_clauses if path.endswith(".rt") else in_page
        new = how(old, rows)
        if new != old:
            with open(path, "w", encoding="utf-8", newline="") as it:
                it.write(new)
            changed += 1
    print(f"{len(rows)} names, {changed} files")
    return 0


if __name__ == "__main__":
    raise SystemExit(main(sys.argv[1:]))
