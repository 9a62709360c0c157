#!/usr/bin/env python3
"""Writes definitions and clauses in the kit's words of now, each another name or an abbreviation of the old one.

    eqb a b          a == b                     cond t a b      if t then a else b
    leb a b, ltb     nat_le a b, nat_lt         get_or l i 0    slice_index l i, else slice_index_or l i d

usage: tools/reword.py [TOP]

It turns specs/, the clauses of src/ and the edits of specs/; proofs keep their words. A second run changes nothing. `rt fmt` comes after it.
"""

import os
import re
import sys

TOKEN = re.compile(
    r"""(\s*)(--[^\n]*|//[^\n]*|"(?:[^"\\\n]|\\.)*"|[(){};,]|\.[A-Za-z«][\w'-]*»?|\.\d+|\.|[^\s(){};,."]+)"""
)
USE = re.compile(
    r"^((?:pub )?(?:ghost )?use Rattle\.std\.specs\.Prelude\.\{)([^}]*)(\};?)$", re.M
)
HEAD = re.compile(r"^(?:pub )?use [^\n]*\n", re.M)
CLAUSE = re.compile(r"(?m)^ *(?:requires|ensures)(?: \w+)? \{")
NAMES = {"leb": ["nat_le"], "ltb": ["nat_lt"], "eqb": ["◌==◌"], "cond": ["if◌then◌else◌"]}
NAMES["get_or"] = ["slice_index", "slice_index_or"]
WORDS = {"leb": "nat_le", "ltb": "nat_lt"}
OPERATORS = set(
    "≡ ≢ ≤ < + - * / % ^ ∷ ++ && || → ↔ × ⊎ = == then λ +ℤ -ℤ : let in where else if ∙".split()
)
INNER = {"λ", "if", ":", "let", "where", "="}
TIGHTER = set("+ - * / % ^".split())
BEFORE_TEST = {"&&", "||", "=", ";", ",", ".", "if", "then", "else"}
AFTER_TEST = {"&&", "||", ";", ",", "then", "else"}


class Group:
    """What stands between two brackets, as pairs of the space before and a word or another group."""

    def __init__(self, opened):
        self.opened, self.items, self.closed, self.space = opened, [], "", ""


def parse(text):
    top, end = Group(""), 0
    open_groups = [top]
    for m in TOKEN.finditer(text):
        space, word = m[1], m[2]
        end = m.end()
        if word in ("(", "{"):
            group = Group(word)
            open_groups[-1].items.append((space, group))
            open_groups.append(group)
        elif word in (")", "}") and len(open_groups) > 1:
            group = open_groups.pop()
            group.closed, group.space = word, space
        else:
            open_groups[-1].items.append((space, word))
    assert len(open_groups) == 1, "a bracket is open"
    return top.items, text[end:]


def written(items):
    def one(x):
        return x if isinstance(x, str) else x.opened + written(x.items) + x.space + x.closed

    return "".join(space + one(x) for space, x in items)


def is_word(x):
    return isinstance(x, str)


def past_argument(items, at):
    """Where the argument that begins here ends: a word or a bracket, with its projections. None where there is none."""
    if at is None or at >= len(items):
        return None
    x = items[at][1]
    if not is_word(x):
        if x.opened == "{":
            return None
    elif x in OPERATORS or x in ";,." or x[0] == "." or x[:2] in ("--", "//"):
        return None
    at += 1
    while at < len(items) and items[at][0] == "" and is_word(items[at][1]) and re.match(r"\.\S", items[at][1]):
        at += 1
    return at


def bare(items, loose):
    """An argument's text, without its brackets where no operator in it is among the loose ones."""
    group = items[0][1]
    if len(items) == 1 and not is_word(group):
        inside = {x for _, x in group.items if is_word(x) and x in OPERATORS | {","}}
        if not inside & loose:
            return written(group.items).strip()
    return written([("", group)] + items[1:])


def bare_else(items):
    """The same of what stands behind `else`, where a further choice needs none."""
    group = items[0][1]
    if len(items) == 1 and not is_word(group) and group.items[0][1] == "if":
        return written(group.items).strip()
    return bare(items, INNER | {"then", ","})


def neighbours(items, start, end):
    """The word before, and the word after on the same line; None where the group or the line ends. No operator begins a line behind a test or a choice here."""
    before = items[start - 1][1] if start else None
    after = items[end][1] if end < len(items) and "\n" not in items[end][0] else None
    return before, after


def stands_free(x, allowed):
    return x is None or (is_word(x) and x in allowed)


def put(items, start, end, text, free):
    new, _ = parse(text if free else "(" + text + ")")
    new[0] = (items[start][0], new[0][1])
    items[start:end] = new


def turn_test(items, at):
    a = past_argument(items, at + 1)
    b = past_argument(items, a)
    if b is None:
        return
    before, after = neighbours(items, at, b)
    free = stands_free(before, BEFORE_TEST) and stands_free(after, AFTER_TEST)
    loose = (OPERATORS | {","}) - TIGHTER
    left, right = bare(items[at + 1 : a], loose), bare(items[a:b], loose)
    put(items, at, b, f"{left} == {right}", free)


def turn_operand(items, at):
    """Of a test that is written `a == b` already, b without brackets that it does not need."""
    end = past_argument(items, at + 1)
    if end is not None:
        put(items, at + 1, end, bare(items[at + 1 : end], (OPERATORS | {","}) - TIGHTER), True)


def turn_choice(items, at):
    a = past_argument(items, at + 1)
    b = past_argument(items, a)
    c = past_argument(items, b)
    if c is None:
        return
    before, after = neighbours(items, at, c)
    free = stands_free(before, {"=", ";", ",", "."}) and stands_free(after, {";", ","})
    parts = [bare(x, INNER | {"then", ","}) for x in (items[at + 1 : a], items[a:b])]
    parts.append(bare_else(items[b:c]))
    spaces = [items[k][0] if "\n" in items[k][0] else " " for k in (a, b)]
    put(items, at, c, f"if {parts[0]}{spaces[0]}then {parts[1]}{spaces[1]}else {parts[2]}", free)


def turn_index(items, at):
    c = past_argument(items, past_argument(items, at + 1))
    d = past_argument(items, c)
    if d is not None and written(items[c:d]).strip() == "0":
        items[at] = (items[at][0], "slice_index")
        del items[c:d]
    else:
        items[at] = (items[at][0], "slice_index_or")


TURNS = {"==": turn_operand, "eqb": turn_test, "cond": turn_choice, "get_or": turn_index}


def turn(items):
    for _, x in items:
        if not is_word(x):
            turn(x.items)
    at = 0
    while at < len(items):
        space, x = items[at]
        if is_word(x) and x in WORDS:
            items[at] = (space, WORDS[x])
        elif is_word(x) and x in TURNS:
            TURNS[x](items, at)
        at += 1


def turned(text):
    items, rest = parse(text)
    turn(items)
    return written(items) + rest


def imports(text, body):
    """The library's words that a file brings in: the new one for the old, where the body has it."""

    def has(name):
        word = "if" if name.startswith("if◌") else name.strip("◌")
        return re.search(rf"(?<![\w.'◌-]){re.escape(word)}(?![\w'◌-])", body)

    def one(m):
        names = []
        for name in (x.strip() for x in m[2].split(",")):
            more = [name] if name not in NAMES else [x for x in [name, *NAMES[name]] if has(x)]
            names += [x for x in more if x not in names]
        return m[1] + ", ".join(names) + m[3]

    return USE.sub(one, text)


def antt(text):
    heads = list(HEAD.finditer(text))
    cut = heads[-1].end() if heads else 0
    body = turned(text[cut:])
    return imports(text[:cut], body) + body


def rust(text):
    out, clauses, at = [], [], 0
    for m in CLAUSE.finditer(text):
        end, deep = m.end(), 1
        while deep:
            deep += (text[end] == "{") - (text[end] == "}")
            end += 1
        clauses.append(turned(text[m.end() : end - 1]))
        out += [text[at : m.end()], clauses[-1]]
        at = end - 1
    return imports("".join(out) + text[at:], "\n".join(clauses))


def edit(text):
    def line(l):
        head, sep, rest = l.partition(": ")
        return head + sep + turned(rest) if head in ("old", "new") and "file: specs/" in text else l

    return "\n".join(line(l) for l in text.split("\n"))


def main():
    top = sys.argv[1] if len(sys.argv) > 1 else "."
    changed = 0
    for folder, dirs, names in os.walk(os.path.join(top, "crates")):
        dirs[:] = sorted(d for d in dirs if d not in ("out", "proofs"))
        for name in sorted(names):
            how = {".antt": antt, ".rt": rust, ".edit": edit}.get(os.path.splitext(name)[1])
            path = os.path.join(folder, name)
            if how is None:
                continue
            with open(path, encoding="utf-8") as f:
                old = f.read()
            new = how(old)
            if new != old:
                changed += 1
                with open(path, "w", encoding="utf-8") as f:
                    f.write(new)
    print(f"{changed} files")


if __name__ == "__main__":
    main()
