"""Compiles the module with the calls kept apart, measures each on every input, and prints the most bytes of stack by call
and kind of tree."""
import subprocess
import sys
from pathlib import Path

NODES = 8192
KINDS = ["parentheses", "rows", "excerpt"]
LIMIT = 4096
LOW_LIMIT = 1024
LOW_CALLS = {"load", "rise", "fall", "tally"}
SELECTOR = "selector::selector::Selector::"
FEED = "feed::types::"

# The calls, in groups of which none makes another: each group is compiled for itself.
GROUPS = [
    [
        "feedtree::read_tree",
        "reader::read",
        "spelling::write_spelling",
        "select::select",
        "row_tree::write::write_rows",
        "row_tree::row_tree::RowTree::load",
        "excerpt::Excerpt::new",
        SELECTOR + "new",
    ],
    ["feedtree::read_sealed", FEED + "Sealed::into_tree", "select::prepare", SELECTOR + "tally"],
    ["feedfile::read::read", "parens::paren_tree::ParenTree::load", "translate::translate", "settle::settle"],
    [FEED + "Growing::" + name for name in ("begin", "apply", "seal")]
    + [SELECTOR + name for name in ("load", "rise", "fall")],
    [FEED + "Growing::" + name for name in ("open_element", "text", "shut", "name")]
    + ["scan::directory::fill", "program::check::check"],
]


def call_of(symbol):
    """A function's path, without its type arguments."""
    return symbol.split("::<")[0]


def functions(path):
    """The functions of an object file or program: address and name."""
    lines = subprocess.run(["nm", path], capture_output=True, text=True, check=True).stdout.splitlines()
    parts = [line.split(" ", 2) for line in lines]
    return [(part[0], part[2]) for part in parts if len(part) == 3 and part[1] in "tT"]


def compile_module(kit, out, options, to):
    words = (out / "options").read_text().splitlines()
    subprocess.run([kit / "toolchain/bin/clang", *words, *options, "-o", to], cwd=out, check=True)


def build(kit, out, names, group, number):
    """The program in which the calls of a group are not inlined, and its list of symbols."""
    kept, made, program, symbols = (out / f"{part}{number}" for part in ("kept", "module", "program", "symbols"))
    kept.write_text("".join(f"{name},noinline\n" for name in names if call_of(name) in group))
    compile_module(kit, out, ["-mllvm", f"-forceattrs-csv-path={kept}"], made)
    link = [kit / "bin/rattle-link", "--target", "x86_64-unknown-linux-gnu", "--toolchain", kit / "toolchain"]
    subprocess.run([*link, "-o", program, made, kit / "c/libos_c.a", kit / "c/liblibc_c.a"], check=True, capture_output=True)
    at = {address: name for address, name in functions(program) if call_of(name) in group}
    symbols.write_text("".join(f"{address} {name}\n" for address, name in at.items()))
    return program, symbols


def name_slot(name):
    return b"\x04" + name.encode().ljust(32, b"\0")


def feed(names, body):
    return b"".join(map(name_slot, names)) + body + b"\x0f"


def opening(label):
    return b"\x01" + label.to_bytes(2, "big")


def many_names():
    return ["a", "b", "c"] + [f"name{k}" for k in range(509)]


def trees():
    """Trees of 8,192 nodes: a chain, a root with leaves, and a book of units of three nodes."""
    below = NODES - 1
    labels = [2 + k % 3 for k in range(below)]
    chain = b"".join(map(opening, labels)) + b"\x02" * below
    wide = b"".join(opening(label) + b"\x02" for label in labels)
    units = (NODES - 2) // 3
    book = opening(2) + (opening(3) + opening(4) + b"\x03\x02\x02") * units + b"\x02"
    return {
        "chain": feed(many_names(), chain),
        "wide": feed(many_names(), wide),
        "book": feed(["a", "b", "c"], book),
    }


def nested_brackets():
    """Twelve levels of brackets; 23 steps inside, with two on each level but one."""
    text = "c"
    for _ in range(11):
        text = f"b/c[{text}]"
    return f"//a[{text}]"


def nested_not():
    return "//a[" + "not(" * 11 + "b" + ")" * 11 + "]"


def chain_of(word):
    return "//a[" + f" {word} ".join("bc"[k % 2] for k in range(23)) + "]"


def negated_chain():
    """Eleven levels of not around the first member of a chain of 23."""
    text = "b"
    for k in range(11):
        text = f"not({text} {['or', 'and'][k % 2]} c)"
    return f"//a[{text}" + " or b" * 11 + "]"


def bracketed_chain():
    """Brackets at the first member of a chain, twelve levels."""
    text = "b"
    for k in range(11):
        text = f"b[{text}] {['or', 'and'][k % 2]} c"
    return f"//a[{text}]"


def grouped_right():
    """Groups at the last member, twelve levels."""
    text = "b and c"
    for _ in range(11):
        text = f"b and ({text})"
    return f"//a[{text}]"


def grouped_brackets():
    """Groups with brackets at the last member, each twice a level."""
    text = "b"
    for k in range(5):
        text = f"b and not(b or c[{text} or c])"
    return f"//a[{text} or b]"


def long_text():
    """512 bytes: 16 steps outside brackets and 23 inside, with long names of axes."""
    text = "//a[" + "/".join(["following-sibling::c"] * 12) + "]" + "/b" * 15
    inside = " or ".join(["b"] * 11)
    text = text.replace("]", f"[{inside}]]", 1)
    return text + " " * (512 - len(text))


def queries():
    return {
        "brackets": nested_brackets(),
        "not": nested_not(),
        "or": chain_of("or"),
        "and": chain_of("and"),
        "negated": negated_chain(),
        "bracketed": bracketed_chain(),
        "grouped": grouped_right(),
        "mixed": grouped_brackets(),
        "long": long_text(),
    }


def inputs(out):
    """The files to measure on: every query on the book, and every tree with one query."""
    fed = trees()
    texts = queries()
    pairs = [("book", query) for query in texts] + [(tree, "mixed") for tree in fed if tree != "book"]
    for tree, query in pairs:
        path = out / f"{tree}-{query}"
        path.write_bytes(fed[tree] + texts[query].encode())
        yield path


def measure(out, program, symbols, path, kind):
    """The bytes of stack by call."""
    command = [out / "depth", symbols, path, program, kind]
    done = subprocess.run(command, capture_output=True, text=True)
    if done.returncode:
        sys.exit(f"{path.name} {kind}: {done.stderr}")
    taken = {}
    for line in done.stdout.splitlines():
        size, name = line.split(" ", 1)
        call = call_of(name)
        taken[call] = max(taken.get(call, 0), int(size))
    return taken


def note(most, call, kind, size, name):
    """Keeps the most bytes of a call on a kind of tree, and the inputs that took them."""
    known, names = most.setdefault(call, {}).get(kind, (0, []))
    if size > known:
        most[call][kind] = (size, [name])
    elif size == known:
        names.append(name)


def measured(kit, out):
    compile_module(kit, out, ["-O0"], out / "names.o")
    names = [name for _, name in functions(out / "names.o")]
    paths = list(inputs(out))
    most = {}
    for number, group in enumerate(GROUPS):
        program, symbols = build(kit, out, names, group, number)
        for path in paths:
            for kind in KINDS:
                for call, size in measure(out, program, symbols, path, kind).items():
                    note(most, call, kind, size, path.name)
    return most, len(paths)


def print_table(most, path_count):
    """Prints a line for each call, and gives those over their limit."""
    over = []
    print("| call | " + " | ".join(KINDS) + " | deepest on |")
    print("|---|" + "---|" * (len(KINDS) + 1))
    for call in (call for group in GROUPS for call in group):
        by_kind = most.get(call, {})
        if not by_kind:
            print(f"| `{call}` | inlined or not called |")
            continue
        size, names = max(by_kind.values(), key=lambda known: known[0])
        sizes = [str(by_kind[kind][0]) if kind in by_kind else "" for kind in KINDS]
        shown = "all" if len(names) == path_count else ", ".join(names[:2])
        print(f"| `{call}` | " + " | ".join(sizes) + f" | {shown} |")
        low = call.startswith(SELECTOR) and call.rsplit("::", 1)[1] in LOW_CALLS
        if size > (LOW_LIMIT if low else LIMIT):
            over.append(call)
    return over


def main():
    kit, out = Path(sys.argv[1]), Path(sys.argv[2])
    over = print_table(*measured(kit, out))
    print("\nover the limit: " + (", ".join(over) or "none"))
    print("\nsizes of types in bytes:")
    print(subprocess.run([out / "program0", "sizes"], capture_output=True, text=True).stdout, end="")
    sys.exit(1 if over else 0)


main()
