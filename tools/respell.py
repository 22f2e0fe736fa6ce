#!/usr/bin/env python3
"""Respells the definitions and lemmas of specs/ and proofs/: words in snake case, a dash only between two names.

usage: python3 tools/respell.py [--list]      at the top of the repository, once, after the kit's port.py

A name in camel case becomes snake case wherever it stands: in specs/, proofs/, contracts, `ghost use` lines and the pages of docs/.
A lemma whose name is plain words joined by dashes gets underscores; a dash stays between two words of which both are names of
definitions. Names that Rattle makes (goals, steps) and names of src/ stay as they are. EXCEPT gives a name of its own to those that
would fall together with another name.
"""

import glob
import os
import re
import sys

TOP = os.path.join(os.path.dirname(os.path.realpath(__file__)), "..")
TOKEN = re.compile(r"[^\s(){}\[\],;.«»\"⟦⟧|`]+")
HEAD = re.compile(r"^(?:abbrev |unfoldable |pub )*([^\s(){}]+)\s*:(?:\s|$)")
FIELD = re.compile(r"^\s+(?:pub )?([^\s(){}]+)\s*:\s")
GOAL = re.compile(r"^(?:abbrev |pub )*([^\s(){}]+)\s*:\s*goal\.")

# old name: new name, where the rule would give a name that is taken
EXCEPT = {
    "are-characters": "are_characters-Each",
    "at-end": "get_elem-append_end",
    "call-gives": "call_gives-gives_as",
    "digit-of": "digit-code",
    "ends_last": "ends_last-get",
    "function_of": "function_of-Listed",
    "global_reads": "global_reads-Global",
    "items_at": "get_or-newest_first",
    "is-character": "is_character-Character",
    "node-reads": "node_reads-Ranged",
    "oneRow": "one_row_sheet",
    "put-global": "put_global-Globals",
    "take-values": "take_values-take",
    "threeRows": "three_rows_sheet",
    "types-of": "types_of-map",
    "at-row-end": "at_row_end",
    "at-set-below": "at_set_below",
    "within-at-end": "within_at_end",
    "within-at-newline": "within_at_newline",
}


def read(path):
    with open(path, encoding="utf-8") as f:
        return f.read()


def antt_files():
    for part in ("specs", "proofs"):
        yield from sorted(glob.glob(os.path.join(TOP, "crates", "*", part, "**", "*.antt"), recursive=True))


def kit_names():
    """Words of the library that our files import."""
    names = set()
    for path in antt_files():
        for line in read(path).splitlines():
            m = re.match(r"(?:pub )?use Rattle\.std\.[^{]*\{([^}]*)\}", line)
            if m:
                for item in m.group(1).split(","):
                    names.add(item.strip().split(" as ")[0].strip("«» "))
    return names


def defined():
    """Top-level names, fields and constructors that our files define; goals are Rattle's."""
    tops, members, goals = set(), set(), set()
    for path in antt_files():
        inside = False
        for line in read(path).splitlines():
            goal = GOAL.match(line)
            if goal:
                goals.add(goal.group(1))
                continue
            if re.match(r"^(?:abbrev |unfoldable |pub )*(record|data) ", line):
                inside = True
                continue
            if line and not line[0].isspace() and not line.startswith("--"):
                inside = False
            head = HEAD.match(line)
            if head and not line.startswith("use"):
                tops.add(head.group(1))
            elif inside:
                field = FIELD.match(line)
                if field and not line.lstrip().startswith("--"):
                    members.add(field.group(1))
    return tops, members, goals


def snake(word):
    return re.sub(r"(?<=[a-z0-9'])([A-Z])", lambda m: "_" + m.group(1), word).lower()


def camel(word):
    return re.fullmatch(r"[a-z][A-Za-z0-9_]*'*", word) is not None and re.search("[A-Z]", word) is not None


def respelled(name, known):
    """The new spelling of a name that our files define."""
    if name in EXCEPT:
        return EXCEPT[name]
    parts = [snake(p) if camel(p) else p for p in name.split("-")]
    if not all(re.fullmatch(r"[A-Za-z][A-Za-z0-9_]*'*", p) for p in parts):
        return name
    out = parts[0]
    for before, part in zip(parts, parts[1:]):
        named = before in known and part in known
        out += ("-" if named or part[0].isupper() or before[0].isupper() else "_") + part
    return out


def table():
    tops, members, goals = defined()
    kit = kit_names()
    everything = set()
    for path in antt_files():
        for line in read(path).splitlines():
            if not line.lstrip().startswith("--"):
                # what stands behind a dot is a field or a part of a path, and hides nothing
                everything.update(TOKEN.findall(re.sub(r"\.[^\s(){}\[\],;.|]+", " ", line)))
    known = {snake(n) if camel(n) else n for n in tops | kit if "-" not in n} | {"le", "lt", "eq"}
    turned = {}
    for name in sorted(tops | members):
        if name in goals or name in kit or not name[0].islower():
            continue
        new = respelled(name, known)
        if new != name:
            turned[name] = new
    for name in sorted(everything):
        if camel(name) and name not in turned and name not in kit and name not in goals:
            turned[name] = EXCEPT.get(name, snake(name))
    return turned, everything, tops, members


def fallen(turned, everything):
    """Pairs of names that would fall together."""
    taken = {}
    out = []
    for old, new in turned.items():
        if new in taken:
            out.append((old, taken[new], new))
        elif new in everything and new not in turned:
            out.append((old, new, new))
        taken[new] = old
    return out


def turn(text, turned):
    return TOKEN.sub(lambda m: turned.get(m.group(0), m.group(0)), text)


def turn_source(text, turned):
    """Contracts and comments of a source file; strings stay."""
    only = {o: n for o, n in turned.items() if camel(o) or "-" in o}
    pieces = re.split(r'("(?:[^"\\]|\\.)*")', text)
    return "".join(p if k % 2 else turn(p, only) for k, p in enumerate(pieces))


def main():
    turned, everything, tops, members = table()
    pairs = fallen(turned, everything)
    if "--list" in sys.argv:
        for old, new in sorted(turned.items()):
            print(old, new, "top" if old in tops else "member" if old in members else "local")
    for old, other, new in pairs:
        print(f"falls together: {old} with {other} as {new}", file=sys.stderr)
    if "--list" in sys.argv or pairs:
        return 1 if pairs else 0
    for path in antt_files():
        text = read(path)
        new = turn(text, turned)
        if new != text:
            with open(path, "w", encoding="utf-8") as f:
                f.write(new)
    for path in sorted(glob.glob(os.path.join(TOP, "crates", "*", "src", "**", "*.rt"), recursive=True)):
        text = read(path)
        new = turn_source(text, turned)
        if new != text:
            with open(path, "w", encoding="utf-8") as f:
                f.write(new)
    for path in sorted(glob.glob(os.path.join(TOP, "docs", "*.md"))) + [os.path.join(TOP, "README.md")]:
        text = read(path)
        only = {o: n for o, n in turned.items() if camel(o)}
        new = re.sub(r"`[^`\n]*`", lambda m: turn(m.group(0), only), text)
        if new != text:
            with open(path, "w", encoding="utf-8") as f:
                f.write(new)
    return 0


if __name__ == "__main__":
    sys.exit(main())
