"""Counts the places where code could take another form. Run as: forms.py [POINT] [ROOT]; with no point, only the counts.

A place is a line of src/ that the point's pattern finds, outside comments and `ghost use` lines. Clauses are left out but for point 5.
"""
import re
import sys
from collections import defaultdict
from pathlib import Path

PATTERNS = {
    "1 own enums": r"^\s*(pub(\([a-z]+\))? )?enum ",
    "1 flags in structs": r"^\s*(pub(\([a-z]+\))? )?[a-z_]+: bool,",
    "1 numbers for kinds": r"\.number\b|number: [0-9a-z]+|\[Ty \{|^\s*[0-9.=]+( if .*)? =>|=> [0-9]+,$",
    "1 flags as answers": r"fn .*-> bool$|Result<bool",
    "3 loops over an index": r"for [a-z_]+ in [^{]*\.\.|\bwhile ",
    "4 comparisons by hand": r"matches!|\.number (==|!=|<|>)|== [a-z_\[\]0-9.]*\.number",
    "4 conversions by hand": r"=> Some\([A-Za-z]+::[A-Za-z]+\),|=> [0-9]+,$|\* 256|\* 65536|\* 4_294_967_296",
    "4 printing by hand": r"format!|b'0'|ZERO|MINUS",
    "6 buffers with a length": r"^\s*(len|used|at|taken): usize,|\[[A-Z][A-Za-z]+; [0-9]+\]",
    "6 parallel arrays": r"places: Vec|found: &mut|marks: &mut",
    "7 switches on a step": r"match (self\.)?kind\b|\bfn\(|\bdyn\b|Fn\(",
}


def sources(root):
    for path in sorted(Path(root).glob("crates/*/src/**/*.rt")):
        yield path, path.read_text().split("\n")


def is_clause(line):
    return re.match(r"\s*(requires|ensures|decreases|ghost)\b", line) is not None


def found(root, pattern):
    for path, lines in sources(root):
        for number, line in enumerate(lines, 1):
            if line.strip().startswith("//") or is_clause(line):
                continue
            if re.search(pattern, line):
                yield f"{path.relative_to(root)}:{number}: {line.strip()}"


def functions(root):
    """Each function as (place, head, clauses, body lines)."""
    for path, lines in sources(root):
        at = 0
        while at < len(lines):
            start = re.match(r"(\s*)(pub(\([a-z]+\))? )?fn ([a-z_0-9]+)", lines[at])
            if not start or lines[at].rstrip().endswith(";"):
                at += 1
                continue
            indent, end = start.group(1), at + 1
            if not lines[at].rstrip().endswith("{}"):
                while end < len(lines) and lines[end] not in (indent + "}", indent + "{}") and not (lines[end].rstrip().endswith(";") and len(lines[end]) - len(lines[end].lstrip()) <= len(indent) + 4 and not any(l == indent + "{" or l.endswith(" {") for l in lines[at:end])):
                    end += 1
            block = lines[at:end]
            body = next((i for i, l in enumerate(block) if l == indent + "{"), None)
            if body is None:
                body = next((i for i, l in enumerate(block) if l.rstrip().endswith("{") and not is_clause(l)), len(block) - 1)
            head = " ".join(l.strip() for l in block[: body + 1] if not is_clause(l))
            clauses = [l.strip() for l in block[:body] if is_clause(l)]
            yield f"{path.relative_to(root)}:{at + 1}", start.group(4), head, clauses, block[body + 1 :]
            at = max(end, at + 1)


def twins(root):
    """Functions whose bodies are the same once names, types and numbers are taken out."""
    shapes = defaultdict(list)
    for place, name, _, _, body in functions(root):
        tokens = re.findall(r"[A-Za-z_][A-Za-z_0-9:]*|[0-9_]+|[^\sA-Za-z_0-9]", " ".join(body))
        if len(tokens) < 12 or "tests.rt" in place:
            continue
        names, shape = {}, []
        for token in tokens:
            if re.match(r"[A-Za-z_]", token) and token not in ("for", "in", "if", "else", "match", "let", "return", "mut", "self", "Some", "None", "Ok", "Err"):
                token = f"n{names.setdefault(token, len(names))}"
            elif token[0].isdigit():
                token = "0"
            shape.append(token)
        shapes[" ".join(shape)].append(f"{place} {name}")
    return [group for group in shapes.values() if len(group) > 1]


def repeated(root):
    """Clauses that stand in three functions or more, in one crate."""
    seen = defaultdict(set)
    for place, name, _, clauses, _ in functions(root):
        for clause in clauses:
            text = re.search(r"\{(.*)\}", clause)
            if clause.startswith("requires") and text:
                seen[place.split("/")[1], text.group(1).strip()].add(place)
    return {key: places for key, places in seen.items() if len(places) >= 3}


def together(root):
    """Pairs of parameters, by name and type, that four functions or more of a crate have."""
    seen = defaultdict(set)
    for place, _, head, _, _ in functions(root):
        inside = re.search(r"\((.*?)\) ?(->|\{|$)", head)
        if not inside or "tests.rt" in place:
            continue
        names = [p.strip() for p in re.split(r",(?![^<]*>)", inside.group(1)) if ":" in p and "Global" not in p]
        for i, first in enumerate(names):
            for second in names[i + 1 :]:
                seen[place.split("/")[1], first, second].add(place)
    return {key: places for key, places in seen.items() if len(places) >= 4}


def main():
    wanted = sys.argv[1] if len(sys.argv) > 1 else ""
    root = sys.argv[2] if len(sys.argv) > 2 else "."
    for title, pattern in PATTERNS.items():
        places = list(found(root, pattern))
        print(f"{title}: {len(places)}")
        if wanted and title.startswith(wanted):
            print("\n".join("    " + p for p in places))
    groups = twins(root)
    print(f"2 functions of one shape: {sum(map(len, groups))} in {len(groups)} groups")
    if wanted == "2":
        print("\n".join("    " + "  =  ".join(g) for g in groups))
    facts = repeated(root)
    print(f"5 facts required by three functions or more: {len(facts)}, in {sum(map(len, facts.values()))} clauses")
    pairs = together(root)
    print(f"5 pairs of parameters in four functions or more: {len(pairs)}")
    if wanted == "5":
        for (crate, fact), places in sorted(facts.items(), key=lambda x: -len(x[1])):
            print(f"    {len(places)} {crate}: {fact}")
        for (crate, first, second), places in sorted(pairs.items(), key=lambda x: -len(x[1])):
            print(f"    {len(places)} {crate}: {first}, {second}")
    answers = sorted(Path(root).glob("crates/*/proofs/**/Answers.antt"))
    lemmas = sorted(p for p in Path(root).glob("crates/*/proofs/*.antt"))
    size = lambda paths: sum(len(p.read_text().split("\n")) - 1 for p in paths)
    print(f"8 answer files: {len(answers)}, {size(answers)} lines; lemma files: {len(lemmas)}, {size(lemmas)} lines")


main()
