#!/usr/bin/env python3
"""Spells the repository's own definitions, lemmas, record fields and constructors in snake case.

usage: tools/spell_names.py [TOP]

Run once, after the kit's port.py, at the top of the repository. What begins with a capital (a type or a fact) keeps its name, and so does
what comes from a library or from Rattle's source. Where a lemma would meet its definition in one file, the lemma gets `_lem`, or the name
that CLASHES gives it. A file in which two names fall together is named, and nothing is written.
"""
import glob
import os
import re
import sys

TOP = sys.argv[1] if len(sys.argv) > 1 else "."
NAME = re.compile(r"[^\s(){}.;,@\"«»\[\]`]+")
DECLARED = re.compile(
    r"(?m)^ *(?:(?:abbrev|unfoldable|pub|data|record|module) +)*([^\s(){}.;,@\"«»]+)(?: +[^\s(){}.;,@\"«»:]+| \{[^{}\n]*\}| \([^()\n]*\))* :(?=\s)"
)
# Lemmas that lie in one file with the definition whose name they would take.
CLASHES = {
    "tail_of": "tail_of_lem",
    "head-of": "head_of_lem",
    "by-direction": "by_direction_lem",
    "key-test": "key_test_lem",
    "here-byte": "here_byte_lem",
    "nowhere-byte": "nowhere_byte_lem",
    "counts-delivered": "counts_delivered_lem",
    "lines-refused": "lines_refused_lem",
    "tables-pass": "tables_pass_lem",
    "byte-passes": "byte_passes_lem",
    "row-passes": "row_passes_lem",
    "walk-on": "walk_on_lem",
    "step-around": "step_around_lem",
    "column-all": "column_all_lem",
    "no-links": "no_links_lem",
    "bit-and": "bit-bit_and",
    "bit-or": "bit-bit_or",
    # constructors
    "goes_on": "moves_on",
    "bytes_left": "has_bytes_left",
    "bad-ends": "has_bad_ends",
    "bad-weight": "has_bad_weight",
    "lighter-twin": "has_lighter_twin",
    "bad-node-count": "has_bad_node_count",
    "rows-differ": "has_uneven_rows",
}
# port.py spelled this lemma as the source's function: it is meant only where it is declared or imported as a lemma.
LEMMA = re.compile(r"net\.proofs\.Rows\.\{[^}]*\btail_of\b")
# Names of modules in paths, which meet nothing.
MODULES = {"link_set"}
WORD = re.compile(r"^[a-zα-ω][\w'₀-₉*?-]*$")


def snake(name, plain=False):
    if name in CLASHES and not plain:
        return CLASHES[name]
    return re.sub(r"(?<=[a-z0-9])[A-Z]", lambda m: "_" + m[0].lower(), name).replace("-", "_")


def odd(name):
    return bool(WORD.match(name)) and ("-" in name.rstrip("-") or re.search(r"[a-z0-9][A-Z]", name) is not None)


def texts():
    for pattern in ("crates/*/specs/**/*.antt", "crates/*/proofs/**/*.antt", "crates/*/src/**/*.rt"):
        yield from sorted(glob.glob(os.path.join(TOP, pattern), recursive=True))


def in_function(path):
    return re.search(r"/proofs/.*/(Proof|Invariants|Answers)\.antt$", path) is not None


# What a file imports from a library: those names stay in it.
def foreign(text, own):
    names = set()
    for m in re.finditer(r"(?m)\buse ([^\s;{]+?)\.?(\{[^}]*\})?(?: as ([^\s;]+))?;?$", text):
        path = m[1].split(".")
        if path[0] == "Rattle" and path[1] in own and not (len(path) > 3 and path[2] == "specs" and path[3] in ("declared", "contracts")):
            continue
        for item in (m[2] or "").strip("{}").split(","):
            names.add(item.split(" as ")[0].strip())
    return names


def main():
    own = {os.path.basename(os.path.dirname(p)) for p in glob.glob(os.path.join(TOP, "crates/*/src"))}
    read = {p: open(p, encoding="utf-8").read() for p in texts()}
    declared = set()
    for path, text in read.items():
        if path.endswith(".antt") and not in_function(path):
            declared |= {m[1] for m in DECLARED.finditer(re.sub(r"--[^\n]*", "", text))}
    named = {n for n in declared if odd(n)} | {"tail_of", "goes_on", "bytes_left"}
    # what a function's proof imports from the repository's own modules
    for path, text in read.items():
        for m in re.finditer(r"(?m)\buse Rattle\.(\w+)\.(?:specs|proofs)\.[A-Z]?[\w.]*?\.?\{([^}]*)\}", text):
            if m[1] in own and ".declared." not in m[0] and ".contracts." not in m[0]:
                named |= {n for i in m[2].split(",") for n in [i.split(" as ")[0].strip()] if odd(n)}
    # other names that the source gives to definitions
    for path, text in read.items():
        if path.endswith(".rt"):
            named |= {m[1] for line in text.split("\n") if line.startswith("ghost use") for m in re.finditer(r" as (\w+)", line) if odd(m[1])}
    lent = set().union(*(foreign(t, own) for t in read.values()))
    for name in sorted(named & lent):
        print("lent:", name)
    failed = False
    for path, text in read.items():
        keep = foreign(text, own)
        clause = path.endswith(".rt")
        mark = "//" if clause else "--"

        def new(name):
            if name in keep:
                return name
            if name == "tail_of" and not (path.endswith("net/proofs/Rows.antt") or LEMMA.search(text)):
                return name
            if name in named:
                # theorems named after the source's functions
                return snake(name, path.endswith("/Determined.antt"))
            if not clause and not in_function(path) and odd(name):
                return snake(name)
            return name

        met = {}
        out = []
        for line in text.split("\n"):
            code, dash, comment = line.partition(mark)

            def turn(m):
                name = m[0]
                after = new(name)
                if not clause and not in_function(path):
                    met.setdefault(after, set()).add(name)
                return after

            # A path of Rattle's own making keeps its parts; its items are the repository's.
            parts = re.split(r"(Rattle\.[\w.+]*(?:proofs|contracts)\.[a-z+][\w.+]*)", code)
            code = "".join(p if i % 2 else NAME.sub(turn, p) for i, p in enumerate(parts))
            comment = re.sub(r"`([^`\s]+)`", lambda m: "`" + NAME.sub(lambda n: new(n[0]), m[1]) + "`", comment)
            out.append(code + dash + comment)
        for after, names in met.items():
            if len(names) > 1 and after not in MODULES:
                print(f"falls together: {path}: {after}: {sorted(names)}")
                failed = True
        read[path] = "\n".join(out)
    if failed:
        sys.exit("nothing is written")
    for path, text in read.items():
        with open(path, "w", encoding="utf-8") as f:
            f.write(text)
    for path in glob.glob(os.path.join(TOP, "*.md")) + glob.glob(os.path.join(TOP, "*/*.md")) + glob.glob(os.path.join(TOP, "docs/landings/*.md")):
        with open(path, encoding="utf-8") as f:
            text = f.read()
        turned = re.sub(r"`([^`\s]+)`", lambda m: "`" + (snake(m[1]) if m[1] in named and m[1] not in ("tail_of", "goes_on", "bytes_left") else m[1]) + "`", text)
        if turned != text:
            with open(path, "w", encoding="utf-8") as f:
                f.write(turned)


main()
