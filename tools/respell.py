#!/usr/bin/env python3
"""Brings the repository's own definitions, laws and fields to snake case: `sideTotals` and `side-totals` become `side_totals`.

usage: tools/respell.py [--check] [TOP]

It goes by the names that specs/ and proofs/ declare. What Rattle makes (goals and what stands behind `c.`), what the library declares, types, modules,
functions of src/, strings and exported names keep their spelling. Two names that would fall together stand in APART with the name that the second gets.
A second run changes nothing. --check writes nothing and counts.
"""

import os
import re
import sys

WORD = re.compile(r'[^\s(){}\[\].;,@"«»`]+')
# names that would take a definition's name: the law, the case or the field gets another
APART = {
    "bit-or": "bit_of_or",
    "bought-at": "bought_at_lem",
    "call-in": "call_in_lem",
    "call-of": "call_of_lem",
    "cover-in": "cover_in_lem",
    "due-at": "due_at_lem",
    "event-line": "event_line_lem",
    "fields-in": "fields_in_lem",
    "flags-in": "flags_in_lem",
    "in-place": "in_place_lem",
    "lots-at": "lots_at_lem",
    "no-cross": "no_crossing",
    "no-fill": "no_fills",
    "no-wide": "no_wide_lem",
    "order-at": "order_at_lem",
    "order-in": "order_in_lem",
    "refused-with": "refused_with_lem",
    "row-of": "row_of_lem",
    "same-participant": "same_participant_lem",
    "side-lots": "side_lots_lem",
    "sum-below": "sum_below_lem",
    "takes-part": "takes_part_lem",
}
# what Rattle makes under a name that a law's field has too: it stays where a function's goals are answered
MADE = {"session-is"}
# parameters, which no line declares by itself
LOCALS = (
    "all-given bandBps fillCount fillsSettled hasId isOrder maxCash newBuy newSell orderCount rofrQty "
    "room-too skippedFills tooLong"
).split()
MARKS = "unfoldable|abbrev|pub|private|opaque|record|data|syntax|constructor"
DECLARED = re.compile(
    rf"^\s*(?:(?:{MARKS})\s+)*({WORD.pattern})(?:\s*[({{][^=\n]*?[)}}])*\s*:(?=\s|$)(.*)"
)
USE = re.compile(r"^(?:pub )?(?:ghost )?use ([\w.·]+)\.\{([^}]*)\}", re.M)
ANTT_QUIET = re.compile(r'"(?:[^"\\\n]|\\.)*"|(?<!\S)--[^\n]*|\{-.*?-\}', re.S)
RUST_QUIET = re.compile(r'"(?:[^"\\\n]|\\.)*"|//[^\n]*')
CLAUSE = re.compile(
    r"ghost use\b[^;]*;|(?:requires|ensures)\*?\s*(?:\w+\s*)?\{|ghost\s+\w*\s*[:=]?\s*\{"
)
SPAN = re.compile(r"`[^`\n]+`")


def snake(name):
    if name in APART:
        return APART[name]
    name = name.replace("-", "_")
    if not name[0].islower():
        return name
    return re.sub(r"([a-z0-9'])([A-Z])", r"\1_\2", name).lower()


def is_odd(name):
    if not re.fullmatch(r"[A-Za-z0-9_'-]+", name) or not re.search("[a-z]", name):
        return False
    return "-" in name or (name[0].islower() and bool(re.search("[A-Z]", name)))


def read(path):
    with open(path, encoding="utf-8") as f:
        return f.read()


def below(top, ends):
    for folder, dirs, names in os.walk(top):
        dirs[:] = sorted(d for d in dirs if d not in ("out", ".git", "target"))
        for n in sorted(names):
            if n.endswith(ends):
                yield os.path.join(folder, n)


def of_goals(line, name):
    return re.match(rf"\s*[\w.]*\.?goal\.{re.escape(name)}(?!\S)", line) is not None


def names(crates):
    """The table: each odd name that specs/ or proofs/ declares, with its new spelling."""
    table = {n: snake(n) for n in LOCALS}
    for path in below(crates, ".antt"):
        for line in ANTT_QUIET.sub("", read(path)).split("\n"):
            m = DECLARED.match(line)
            if m and is_odd(m[1]) and not of_goals(m[2], m[1]):
                table[m[1]] = snake(m[1])
    return table


def of_the_library(text, own):
    """The names that a file brings in from elsewhere."""
    found = set()
    for m in USE.finditer(text):
        head = m[1].replace("·", ".").split(".")
        if not (head[0] == "Rattle" and len(head) > 1 and head[1] in own):
            found |= {x.strip().split(" as ")[0] for x in m[2].split(",")}
    return found


def words(text, table, keep=()):
    def one(m):
        return table.get(m[0], m[0]) if m[0] not in keep else m[0]

    return WORD.sub(one, text)


def spans(text, table):
    return SPAN.sub(lambda m: words(m[0], table), text)


def between(pattern, text, inside, outside):
    out, at = [], 0
    for m in pattern.finditer(text):
        out += [outside(text[at : m.start()]), inside(m[0])]
        at = m.end()
    return "".join(out + [outside(text[at:])])


def camel(text, table):
    """Prose: a word with a capital inside is a name of this repository wherever it stands."""
    shown = {n: s for n, s in table.items() if "-" not in n}
    return spans(words(text, shown), table)


def quiet(text, table):
    return text if text.startswith('"') else camel(text, table)


def antt(text, table, own):
    keep = of_the_library(text, own) | (MADE if "as goal" in text else set())
    return between(
        ANTT_QUIET, text, lambda t: quiet(t, table), lambda t: words(t, table, keep)
    )


def clause_end(text, at):
    deep = 0
    for i in range(at, len(text)):
        deep += (text[i] == "{") - (text[i] == "}")
        if deep == 0:
            return i + 1
    return len(text)


def rust(text, table, own):
    """A source file: clauses and `ghost use` in full, elsewhere the words with a capital inside, which no name of Rust's has."""
    keep = of_the_library(text, own)
    bare = {n: s for n, s in table.items() if "-" not in n}

    def code(part):
        out, at = [], 0
        while m := CLAUSE.search(part, at):
            end = m.end() if m[0].endswith(";") else clause_end(part, m.end() - 1)
            out += [words(part[at : m.start()], bare, keep), words(part[m.start() : end], table, keep)]
            at = end
        return "".join(out + [words(part[at:], bare, keep)])

    return between(RUST_QUIET, text, lambda t: quiet(t, table), code)


def edit(text, table, own):
    def line(l):
        head, sep, rest = l.partition(": ")
        if head not in ("old", "new"):
            return camel(l, table)
        return head + sep + words(rest, table)

    return "\n".join(line(l) for l in text.split("\n"))


def prose(text, table, own):
    return camel(text, table)


KINDS = {".antt": antt, ".rt": rust, ".edit": edit, ".md": prose, ".h": prose}


def main():
    args = [a for a in sys.argv[1:] if a != "--check"]
    top = args[0] if args else "."
    crates = os.path.join(top, "crates")
    own, table = set(os.listdir(crates)), names(crates)
    changed = 0
    for path in below(top, tuple(KINDS)):
        old = read(path)
        new = KINDS[os.path.splitext(path)[1]](old, table, own)
        if new != old:
            changed += 1
            if "--check" not in sys.argv:
                with open(path, "w", encoding="utf-8") as f:
                    f.write(new)
    print(f"{len(table)} names, {changed} files")


if __name__ == "__main__":
    main()
