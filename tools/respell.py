#!/usr/bin/env python3
"""Brings the repository's own definitions and lemmas to one spelling.

usage: python3 tools/respell.py        at the top of the repository, once, after the kit's own script for older repositories

What is defined in specs/ and proofs/, or imported by `as`, under a name with a dash, or in camel case, gets it in snake
case; a type, in camel case with a capital. That is done in crates/, and between backquotes in docs/ and README.md. Names
that Rattle makes (of goals, invariants and measures), functions of src/, strings, and lines of comment outside backquotes
stay. A new name that stands somewhere already is taken where TOGETHER lists it; else it is printed, as `falls together`,
and the old one stays.
"""

import collections
import os
import re
import sys

SIGNATURE = re.compile(r"^\s*(?:(?:abbrev|unfoldable|pub|mutual) )*(?:(data|record) )?([A-Za-z][\w'-]*) (?:\{[^}]*\} )*(?:\([^)]*\) )*:(?: (.*))?$")
TOKEN = re.compile(r"[A-Za-z_][\w'-]*")
USE = re.compile(r"^(ghost )?use ")
ALIAS = re.compile(r"\bas ([A-Za-z][\w'-]*)")
# New names that stand somewhere already, looked at one by one: what has them is of another module or a bound variable.
TOGETHER = set("""
UnitOf and_wraps at_end axis_before axis_of first_is formulas_keep holds_name is_child is_empty is_end is_far is_marked
is_name is_node is_root is_text label_from may_follow name_test next_from next_is of_filter of_path of_pred or_wraps
first_child next_sibling part_end predicate_at put_bit rules_keep step_at with_command with_move
""".split())
# Names that would fall together within a file: a lemma named as its function gets `_lem`.
OTHERWISE = {
    "axisOf": "axis_of_word",
    "in-filter": "in_filter_lem",
    "in-pred": "in_pred_lem",
    "preds-filter": "preds_filter_lem",
    "preds-parts": "preds_parts_lem",
    "preds-path": "preds_path_lem",
    # the kit's script gave this name of a definition the ending of a lemma
    "width_of_lem": "width_of",
}
# Old names that stay: a dash joins the names of two functions, of which one is the library's.
STAY = {"append-nil", "bit-and", "bit-or"}


def files(root, *endings):
    for folder, dirs, names in os.walk(root):
        dirs[:] = sorted(d for d in dirs if d not in ("out", "target", ".git"))
        for name in sorted(names):
            if name.endswith(endings):
                yield os.path.join(folder, name)


def read(path):
    with open(path, encoding="utf-8") as f:
        return f.read()


def indent(line):
    return len(line) - len(line.lstrip())


def signatures(text):
    """Each name that is defined, with the kind (data, record or none) and the text of its signature."""
    lines = text.split("\n")
    for i, line in enumerate(lines):
        m = SIGNATURE.match(line)
        if not m or line.lstrip().startswith("--"):
            continue
        whole = m.group(3) or ""
        for later in lines[i + 1 :]:
            if indent(later) <= indent(line) or SIGNATURE.match(later):
                break
            whole += " " + later.strip()
        yield m.group(2), m.group(1), whole


def is_type(kind, signature):
    return bool(kind) or re.search(r"(^|→ |\) )Type \d+( where)?$", signature.strip()) is not None


def snake(name):
    name = re.sub(r"(?<=[a-z0-9])([A-Z]+)", lambda m: "_" + m.group(1).lower(), name)
    return name.replace("-", "_")


def camel(name):
    head, *rest = name.split("-")
    return head + "".join(w[:1].upper() + w[1:] for w in rest)


def renames(root):
    found = collections.defaultdict(set)
    goals = set()
    for path in files(os.path.join(root, "crates"), ".antt"):
        for name, kind, signature in signatures(read(path)):
            if re.match(r"\w+\.%s(\s|$)" % re.escape(name), signature):
                goals.add(name)
            else:
                found[name].add(is_type(kind, signature))
    for path in files(os.path.join(root, "crates"), ".antt", ".rt"):
        for line in read(path).split("\n"):
            if USE.match(line):
                for name in ALIAS.findall(line):
                    found[name].add(name[0].isupper())
    new = {}
    for name, types in found.items():
        if name in goals or name in STAY:
            continue
        if name in OTHERWISE:
            new[name] = OTHERWISE[name]
            continue
        if name[0].isupper():
            if "-" in name:
                new[name] = camel(name) if types == {True} else name.replace("-", "_")
        elif "-" in name or re.search(r"[A-Z]", name):
            new[name] = snake(name)
    return {a: b for a, b in new.items() if a != b}


# In Rust code: strings, characters and comments are passed over.
PASSED = re.compile(r'//[^\n]*|b?"(?:\\.|[^"\\])*"|b?\'(?:\\.|[^\'\\])\'', re.S)
QUOTED = re.compile(r"`[^`\n]*`")


def respell(text, new):
    return TOKEN.sub(lambda m: new.get(m.group(0), m.group(0)), text)


def respell_quoted(text, new):
    return QUOTED.sub(lambda m: respell(m.group(0), new), text)


def respell_rust(text, new):
    out, at = [], 0
    for m in PASSED.finditer(text):
        out.append(respell(text[at : m.start()], new))
        part = m.group(0)
        out.append(respell_quoted(part, new) if part.startswith("//") else part)
        at = m.end()
    out.append(respell(text[at:], new))
    return "".join(out)


def respell_antt(text, new):
    lines = []
    for line in text.split("\n"):
        code, dashes, comment = line.partition("-- ")
        if code.strip() == "" and dashes:
            lines.append(code + dashes + respell_quoted(comment, new))
        else:
            lines.append(respell(line, new))
    return "\n".join(lines)


def main():
    root = "."
    new = renames(root)
    paths = list(files(os.path.join(root, "crates"), ".antt", ".rt"))
    stand = collections.Counter()
    for path in paths:
        stand.update(TOKEN.findall(PASSED.sub(" ", read(path)) if path.endswith(".rt") else read(path)))
    by_new = collections.defaultdict(list)
    for a, b in new.items():
        by_new[b].append(a)
    for b, olds in sorted(by_new.items()):
        if (stand[b] or len(olds) > 1) and b not in TOGETHER:
            print(f"falls together: {' '.join(sorted(olds))} -> {b} ({stand[b]} already)")
            for a in olds:
                del new[a]
    done = 0
    for path in paths + list(files(os.path.join(root, "docs"), ".md")) + [os.path.join(root, "README.md")]:
        text = read(path)
        turn = respell_rust if path.endswith(".rt") else respell_antt if path.endswith(".antt") else respell_quoted
        turned = turn(text, new)
        if turned != text:
            with open(path, "w", encoding="utf-8") as f:
                f.write(turned)
            done += 1
    print(f"{len(new)} names, {done} files")


sys.exit(main())
