#!/usr/bin/env python3
"""Brings the edits (crates/*/edits, crates/*/must-fail) from the text of the last landed commit over to the text that stands now.

usage: tools/turn_edits.py [--check | --keep] [CRATE..]      at the top of the repository
  --check   writes nothing: tells which edits do not apply to the files as they are
  --keep    leaves an edit alone whose present text applies and is not the landed text

The landed commit is the first line of docs/PORT.md. Each edit is written anew from its landed text, so this can be run again
whenever sources have moved; without --keep it writes over what was changed by hand, but for the edits named in BY_HAND, which are
only checked. The spelling of names is read off the difference between the landed files and the present ones; the rules of the newer
language (projections, contracts, paths) are below. An edit is not written but listed where its turned old text does not stand exactly
once, or not at the line that corresponds to the landed one; what stands there, by an alignment of the tokens, is shown with it.
"""

import collections
import difflib
import functools
import os
import re
import subprocess
import sys

# Edits whose text was written by hand.
BY_HAND = {
    # an import that is one line with others now
    "crates/card_lock_in/must-fail/damaged_lock_block_unlocks.edit",
    "crates/crc/edits/test_of_any_place.edit",
    # a name that the file does not import
    "crates/card/edits/illegal_sets_the_application_mark.edit",
    "crates/wire_packet/edits/low_byte_first.edit",
}

WORD = re.compile(r"[^\s(){}.;,:@\"«»`\[\]⌜⌝]+")
TOKEN = re.compile(r"[^\s(){}.;,:@\"«»`\[\]⌜⌝]+|[(){}.;,:@\"«»`\[\]⌜⌝]")
CODE = re.compile(r"\w+|[^\w\s]")
ATOM = r"(?:«[^»]*»|[^\s(){}.;,:@\"«»`\[\]⌜⌝]+)"


def landed_commit():
    with open("docs/PORT.md", encoding="utf-8") as it:
        return it.readline().strip()


def git(*words):
    return subprocess.run(["git", *words], capture_output=True, check=True, text=True).stdout


def read(path):
    with open(path, encoding="utf-8", newline="") as it:
        return it.read()


# ---- edits


def parsed(text):
    """The lines of an edit, each with its key: file, old, new or none."""
    rows = []
    for line in text.split("\n"):
        m = re.match(r"(file|old|new):(?: (.*))?$", line)
        rows.append((m.group(1), m.group(2) or "") if m else ("", line))
    return rows


def pairs(rows):
    """The number of the new line in the rows, the file, the old text and the new one."""
    found, file, old = [], None, None
    for at, (key, text) in enumerate(rows):
        if key == "file":
            file = text
        elif key == "old":
            old = text
        elif key == "new":
            found.append((at, file, old, text))
    return found


def written(rows):
    return "\n".join(f"{key}: {text}" if key else text for key, text in rows)


def misfit(rows, texts):
    """Why an edit does not apply to the texts of its files, or None."""
    now = {}
    for _, file, old, new in pairs(rows):
        text = now.get(file, texts(file))
        if text is None:
            return f"{file} is missing"
        if text.count(old) != 1:
            return f"stands {text.count(old)} times in {file}: {old}"
        if old == new:
            return f"changes nothing in {file}: {old}"
        now[file] = text.replace(old, new)
    return None


# ---- names


def in_clause(text):
    """For each line of a source whether it is of a contract or a ghost use."""
    flags, depth = [], 0
    for line in text.split("\n"):
        bare = line.lstrip()
        starts = bool(re.match(r"(requires|ensures)\b", bare))
        flags.append(bool(depth or starts or bare.startswith("ghost use ")))
        if depth or starts:
            depth += line.count("{") - line.count("}")
    return flags


def names(landed):
    """What each word became, counted over the hunks of the difference: by kind of text, and by file."""
    counts = {"spec": collections.defaultdict(collections.Counter), "code": collections.defaultdict(collections.Counter)}
    here = collections.defaultdict(lambda: collections.defaultdict(collections.Counter))
    out = git("diff", "-U0", "--no-color", "--no-ext-diff", landed, "--", "crates/*.antt", "crates/*/src/*.rt")
    path, gone, come = None, [], []

    def count():
        if not gone or not come:
            return
        couples = list(zip(gone, come)) if len(gone) == len(come) else [("\n".join(gone), "\n".join(come))]
        for old, new in couples:
            spec = path.endswith(".antt") or re.search(r"requires|ensures|ghost use|⌜", old)
            take = WORD if spec else re.compile(r"\w+")
            a, b = take.findall(old), take.findall(new)
            if len(a) * len(b) > 250000:
                continue
            for op, i, j, k, m in difflib.SequenceMatcher(None, a, b, autojunk=False).get_opcodes():
                if op == "equal" or (op == "replace" and j - i == m - k):
                    for x, y in zip(a[i:j], b[k:m]):
                        counts["spec" if spec else "code"][x][y] += 1
                        here[path][x][y] += 1

    for line in out.split("\n"):
        if line.startswith(("diff ", "@@")):
            count()
            gone, come = [], []
        elif line.startswith("+++ "):
            path = line[6:]
        elif line.startswith("-") and not line.startswith("--- "):
            gone.append(line[1:])
        elif line.startswith("+"):
            come.append(line[1:])
    count()
    return counts, here


def alike(old, new):
    """Whether the new word is a spelling of the old one."""
    return re.sub(r"[-_◌·]", "", old).lower() == re.sub(r"[-_◌·]", "", new).lower()


@functools.cache
def quoted():
    """The names that stand in quotes now."""
    return set(git("grep", "-oh", "«[^»]*»", "--", "crates/*.antt", "crates/*/src/*.rt").split("\n"))


def respelled(word, kind, path, counts, here):
    for table in (here.get(path, {}), counts[kind]):
        if word in table:
            best = table[word].most_common(1)[0][0]
            if best == word or alike(word, best) or (kind == "spec" and not re.fullmatch(r"[a-z]+", word)):
                return best
    return word


# ---- rules of the newer language


def group_start(text, end):
    """Where the atom that ends before end begins."""
    if end and text[end - 1] in ")]":
        depth = 0
        for at in range(end - 1, -1, -1):
            depth += {")": 1, "]": 1, "(": -1, "[": -1}.get(text[at], 0)
            if depth == 0:
                return at
        return None
    m = re.search(r"(?:" + ATOM + r")(?:\." + ATOM + r")*$", text[:end])
    return m.start() if m else None


def operand(text, end):
    """Where the application that ends before end begins, and how many atoms it has."""
    start, atoms = end, 0
    while True:
        at = group_start(text, start)
        if at is None:
            return start + (len(text[start:end]) - len(text[start:end].lstrip())), atoms
        atom = text[at:start]
        if not re.match(r"[\w(«\[]", atom):
            break
        start, atoms = at, atoms + 1
        if not (start and text[start - 1] == " "):
            break
        start -= 1
    return start + (len(text[start:end]) - len(text[start:end].lstrip())), atoms


def projections(text):
    """`c .bus .mode` is c.bus.mode, `row k .index` is (row k).index, and what is one atom then has no parentheses."""
    while True:
        m = re.search(r"(?<=\S) \.(" + ATOM + r")", text)
        if not m:
            return text
        head = text[: m.start()]
        start, atoms = operand(head, len(head))
        if atoms > 1:
            head = head[:start] + "(" + head[start:] + ")"
        text = head + "." + m.group(1) + text[m.end() :]
        text = re.sub(r"(?<![\w)])\((" + ATOM + r"(?:\." + ATOM + r")+)\)(?!\.)", r"\1", text)
        text = re.sub(r"\((\([^()]*\)(?:\." + ATOM + r")+)\)", r"\1", text)


def contract(text, lent, result):
    """A clause in the newer spelling; `lent` are the places that are lent to be changed, `result` is what the result was called."""
    bound = re.search(r"λ (\w+)\.\s*⌜", text)
    result = bound.group(1) if bound else result
    text = re.sub(r"λ (\w+)\.\s*⌜", "⌜", text).replace("⌜ ", "").replace(" ⌝", "")
    if result:
        text = re.sub(rf"\b{result}\b(?! :)", "result", text)
    text = re.sub(r"\(?\bnow \((\w+) \.entry\)\)?", lambda m: whole(m, m.group(1) + (".old" if m.group(1) in lent else ".now")), text)
    text = re.sub(r"\(?\bnow \((\w+) \.exit\)\)?", lambda m: whole(m, m.group(1) + ".new"), text)
    text = re.sub(r"\(?(?<!\.)\bnow (\w+)\b\)?", lambda m: whole(m, m.group(1) + (".now" if m.group(1) not in lent else ".old")), text)
    return text


def whole(m, name):
    """Parentheses of the match go only both at once."""
    text = m.group(0)
    front = "(" if text.startswith("(") else ""
    back = ")" if text.count(")") > text.count("(") - bool(front) else ""
    return name if front and back else front + name + back


def spec(text, path, tables, lent=None, result=None):
    text = re.sub(r"Rattle·(\w+)(?:·specs|·proofs)?\.(specs|proofs)\b", r"Rattle.\1.\2", text)
    text = re.sub(r"Rattle\.(\w+)\.(specs|proofs)\.\2\b", r"Rattle.\1.\2", text)
    text = text.replace("the-variants", "TheVariants")
    text = re.sub(r"«(\w+)»", lambda m: m.group(0 if m.group(0) in quoted() else 1), text)
    if lent is not None:
        text = contract(text, lent, result)
    return projections(WORD.sub(lambda m: respelled(m.group(0), "spec", path, *tables), text))


def code(text, path, tables, lent):
    """A source's text: its clauses and ghost items as specs, the rest as code."""
    parts = re.split(r"(ghost use [^;]*;|(?:requires|ensures) \{.*?⌝ \})", text)
    out = []
    for part in parts:
        if re.match(r"ghost use|requires \{|ensures \{", part):
            out.append(spec(part, path, tables, lent))
        else:
            out.append(re.sub(r"\w+", lambda m: respelled(m.group(0), "code", path, *tables), part))
    return "".join(out)


def turned(text, path, tables, clause, lent, result):
    if path.endswith(".antt"):
        return spec(text, path, tables)
    return spec(text, path, tables, lent, result) if clause else code(text, path, tables, lent)


# ---- places


def tokens(text, path):
    return [(m.group(0), m.start(), m.end()) for m in (TOKEN if path.endswith(".antt") else CODE).finditer(text)]


def lines_of(was, now):
    """For each line of the landed text the line of the present one that corresponds, where there is one."""
    def key(line):
        return re.sub(r"[-_◌·()\s⌜⌝,]", "", line).lower()

    a, b = [key(x) for x in was.split("\n")], [key(x) for x in now.split("\n")]
    near = {}
    for op, i, j, k, m in difflib.SequenceMatcher(None, a, b, autojunk=False).get_opcodes():
        for at in range(i, j):
            if op == "equal":
                near[at] = (k + at - i, k + at - i)
            else:
                near[at] = (k - 1, m)
    return near


def changed_by(text, line):
    """What is lent to be changed to the function at a line: its contract has both values."""
    lines = text.split("\n")
    start = end = min(max(line, 0), len(lines) - 1)
    while start and not re.search(r"\bfn \w", lines[start]):
        start -= 1
    while end + 1 < len(lines) and not lines[end].startswith("{"):
        end += 1
    return set(re.findall(r"\b(\w+)\.(?:old|new)\b", "\n".join(lines[start:end])))


def aligned(was, now, start, end, path, tables, clause):
    """The present text between the tokens that correspond to was[start:end]."""
    a, b = tokens(was, path), tokens(now, path)
    kind = "spec" if path.endswith(".antt") or clause else "code"
    x = [respelled(t, kind, path, *tables) for t, _, _ in a]
    y = [t for t, _, _ in b]
    within = [n for n, (_, s, e) in enumerate(a) if s >= start and e <= end]
    if not within:
        return None
    to = {}
    for i, k, size in difflib.SequenceMatcher(None, x, y, autojunk=False).get_matching_blocks():
        for n in range(size):
            to[i + n] = k + n
    hit = [to[n] for n in within if n in to]
    if len(hit) * 2 < len(within):
        return None
    return now[b[min(hit)][1] : b[max(hit)][2]]


# ---- one edit


def turn(path, rows, landed, tables):
    """The rows in the present spelling, or the reason why not."""
    crate = "/".join(path.split("/")[:2])
    was, now = {}, {}
    rows = list(rows)
    for at, file, old, new in pairs(rows):
        full = f"{crate}/{file}"
        if file not in was:
            was[file] = git("show", f"{landed}:{full}")
            if not os.path.exists(full):
                return None, [f"{file} is missing"]
            now[file] = read(full)
        if was[file].count(old) != 1:
            return None, [f"the landed edit does not apply: {old}"]
        near = lines_of(was[file], now[file])
        start = was[file].index(old)
        line = was[file].count("\n", 0, start)
        clause = file.endswith(".rt") and in_clause(was[file])[line]
        lent = changed_by(now[file], near[line][0]) if clause else set()
        result = (re.findall(r"λ (\w+)\.\s*⌜", was[file][: start + len(old)]) or [None])[-1] if clause else None
        first = turned(old, full, tables, clause, lent, result)
        second = turned(new, full, tables, clause, lent, result)
        text = now[file]
        if text.count(first) != 1 and text.count(first.strip()) == 1:
            first, second = first.strip(), second.strip()
        if text.count(first) != 1:
            guess = aligned(was[file], text, start, start + len(old), full, tables, clause)
            return None, [f"stands {text.count(first)} times in {file}: {first}", f"landed: {old}", f"new: {second}", f"perhaps: {guess}"]
        place = text.count("\n", 0, text.index(first))
        low, high = near[line]
        if not low <= place <= high:
            return None, [f"line {line + 1} of {file} is line {low + 1}..{high + 1}, but this is line {place + 1}: {first}"]
        rows[at - 1], rows[at] = ("old", first), ("new", second)
        was[file] = was[file].replace(old, new)
        now[file] = text.replace(first, second)
    for at, (key, text) in enumerate(rows):
        if not key and text.startswith("#"):
            rows[at] = (key, re.sub(r"\([^()]*\)|`[^`]*`", lambda m: remark(m.group(0), tables), text))
    return rows, []


def remark(text, tables):
    """Names of lemmas in a remark."""
    def one(m):
        new = respelled(m.group(0), "spec", "", *tables)
        return new if alike(m.group(0), new) else m.group(0)

    return WORD.sub(one, text)


def edits(crates):
    for crate in sorted(os.listdir("crates")):
        if crates and crate not in crates:
            continue
        for folder in ("must-fail", "edits"):
            at = f"crates/{crate}/{folder}"
            if os.path.isdir(at):
                for name in sorted(os.listdir(at)):
                    if name.endswith(".edit"):
                        yield f"{at}/{name}"


def here_texts(path):
    crate = "/".join(path.split("/")[:2])
    return lambda file: read(f"{crate}/{file}") if os.path.exists(f"{crate}/{file}") else None


def main(words):
    crates = {w for w in words if not w.startswith("--")}
    landed = landed_commit()
    count, bad = collections.Counter(), 0
    tables = None if "--check" in words else names(landed)
    for path in edits(crates):
        present = read(path)
        wrong = misfit(parsed(present), here_texts(path))
        if "--check" in words or path in BY_HAND:
            count["by hand" if path in BY_HAND else "checked"] += 1
            if wrong:
                bad += 1
                print(f"{path}: {wrong}")
            continue
        try:
            before = git("show", f"{landed}:{path}")
        except subprocess.CalledProcessError:
            count["new since"] += 1
            if wrong:
                bad += 1
                print(f"{path}: {wrong}")
            continue
        if "--keep" in words and not wrong and present != before:
            count["kept"] += 1
            continue
        rows, notes = turn(path, parsed(before), landed, tables)
        if rows is not None:
            wrong = misfit(rows, here_texts(path))
            rows, notes = (None, [wrong]) if wrong else (rows, notes)
        if rows is None:
            bad += 1
            print("\n    ".join([f"{path}: not turned"] + notes))
            continue
        text = written(rows)
        count["same" if text == before else "turned"] += 1
        if text != present:
            with open(path, "w", encoding="utf-8", newline="") as it:
                it.write(text)
    print(", ".join(f"{n} {what}" for what, n in sorted(count.items())) + f", {bad} to be brought over by hand")
    return 1 if bad else 0


if __name__ == "__main__":
    sys.exit(main(sys.argv[1:]))
