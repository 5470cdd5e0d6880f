#!/usr/bin/env python3
"""Brings the repository's own definitions and lemmas to snake case, after the toolchain's own script has respelled the rest.

usage: tools/spelling.py [--list] FOLDER      FOLDER holds crates/

A name that a file of specs/ or a lemma file of proofs/ defines is respelled wherever it stands in the crates' .antt and .rt files, and
in the texts of the edits: `agreedSize` becomes `agreed_size`. Dashes stay in a name whose parts are all names, as in
`length-append`, and become underscores in any other. Types and facts keep their capital. A helper of one function's proof is respelled in its file alone; what the
checker names (goals, `NAME_spec`) stays. It prints what falls together, and then writes nothing.
"""

import os
import re
import sys

WORD = re.compile(r"[^\s(){}\[\].,;:=λ→×\"`«»←∘\\|@]+")
SIGNATURE = re.compile(r"^(\s*)((?:(?:abbrev|unfoldable|pub|opaque|data|record)\s+)*)([^\s:(){}]+(?:\s+[^\s:(){}]+)*?)\s*:(?:\s|$)")
HEAD = re.compile(r"^(\s*)((?:(?:abbrev|unfoldable|pub|opaque)\s+)*)(data|record|module)\s+([^\s:(){}]+)")
STRING = re.compile(r'"(?:[^"\\]|\\.)*"')
LIBRARY = set(
    "take drop length append zero suc cons nil get_or slice cond add sub mul div mod min max replicate set map reverse concat ltb leb eqb not "
    "lookup sum xor bit_xor bit_and shift pow head tail last update".split()
)
# A lemma that would have its function's name, where the lemma's is in snake case already: its name, and the files that it stands in.
LEMMAS = {
    "by_row": "crates/replies/proofs/",
    "no_number": "crates/phrases/proofs/",
    "not_taken": "crates/words/proofs/Sayings.antt",
    "image_said": "crates/words/proofs/Sayings.antt",
    "last_stored": ("crates/image/proofs/Storing.antt", "crates/packets/proofs/Repetitions.antt"),
}
# What stays as it is: names that the toolchain reads.
KEEP = {"_", "go", "tt", "refl"}


def texts(root):
    for folder, dirs, files in os.walk(os.path.join(root, "crates")):
        dirs[:] = sorted(d for d in dirs if d != "out")
        for f in sorted(files):
            if f.endswith((".rt", ".antt", ".edit")):
                yield os.path.join(folder, f)


def is_function_proof(path, root):
    parts = os.path.relpath(path, os.path.join(root, "crates")).split(os.sep)
    return parts[1] == "proofs" and parts[-1] in ("Proof.antt", "Answers.antt", "Invariants.antt")


def defined(text):
    """The names that a file defines, each with the text behind its colon, comments aside."""
    found = {}
    for line in text.splitlines():
        line = re.sub(r"(^|\s)--(\s.*)?$", "", line)
        if re.match(r"\s*(use|mod|pub use|pub mod|ghost|unfolding|let|in)\b", line):
            continue
        head = HEAD.match(line)
        if head:
            continue
        it = SIGNATURE.match(line)
        if it and "=" not in it.group(3) and "→" not in it.group(3):
            for name in it.group(3).split():
                found.setdefault(name, line[it.end():].strip())
    return found


def camel(name):
    if not re.match(r"[a-z]", name):
        return name
    name = re.sub(r"(?<=[a-z0-9])([A-Z]+)(?=[A-Z][a-z])", lambda m: "_" + m.group(1).lower(), name)
    return re.sub(r"(?<=[a-z0-9_])([A-Z]+)", lambda m: ("" if m.string[m.start() - 1] == "_" else "_") + m.group(1).lower(), name)


def dashes(name, names):
    """Keeps the dashes of a name whose parts are all names, and makes them underscores in any other."""
    if "-" not in name or not re.match(r"[a-zA-Z]", name):
        return name
    parts = name.split("-")
    return name if all(it.lower() in names for it in parts) else "_".join(parts)


def main(argv):
    listing = "--list" in argv
    root = [a for a in argv if not a.startswith("--")][0]
    paths = list(texts(root))
    content = {p: open(p, encoding="utf-8").read() for p in paths}
    shared, local = {}, {}
    for p in paths:
        if not p.endswith(".antt"):
            continue
        if is_function_proof(p, root):
            local[p] = [n for n, t in defined(content[p]).items() if not re.match(r"(tie|goal)\.", t) and not n.endswith("_spec")]
        else:
            shared.update(dict.fromkeys(defined(content[p]), p))
    names = set(LIBRARY)
    for n in shared:
        if "-" not in n:
            names.add(camel(n).lower())
    # a type's name in lower case stands for it in a lemma's name
    for p in paths:
        if p.endswith(".antt") and not is_function_proof(p, root):
            for m in re.finditer(r"(?:data|record)\s+([A-Z]\w*)", content[p]):
                names.add(m.group(1).lower())

    def turned(n):
        n = n.replace("getD", "get_or")
        return n if n in KEEP or n.startswith(("returns", "loop-")) else dashes(camel(n), names)

    of = {n: turned(n) for n in shared if turned(n) != n}
    # a lemma that would have its function's name
    functions = {of.get(n, n) for n in shared if "-" not in n and n not in LEMMAS}
    for n in of:
        if "-" in n and of[n] in functions:
            of[n] += "_lem"
    by_file = {p: {n: turned(n) for n in ns if turned(n) != n} for p, ns in local.items()}
    bad = 0
    into = {}
    for n in set(shared) | set(of):
        into.setdefault(of.get(n, n), set()).add(n)
    for new, olds in sorted(into.items()):
        if len(olds - set(LEMMAS) - {"goes_on"}) > 1:
            bad += 1
            print(f"fall together: {sorted(olds)} -> {new}")
    for p in paths:
        words = set(WORD.findall(content[p]))
        for n, new in {**of, **by_file.get(p, {})}.items():
            if n in words and new in words and new != n:
                print(f"hides: {os.path.relpath(p, root)}: {n} -> {new}")
    if listing:
        for n in sorted(of):
            print(n, "->", of[n], " ", os.path.relpath(shared[n], root))
        return 0
    if bad:
        return 1
    changed = 0
    for p in paths:
        table = {**of, **by_file.get(p, {})}
        where = os.path.relpath(p, root)
        table.update({n: n + "_lem" for n, at in LEMMAS.items() if where.startswith(at)})

        def line_of(line):
            code, note = line, ""
            at = re.search(r"(^|\s)(--|//)\s", line) if not p.endswith(".edit") else None
            if at:
                code, note = line[: at.start()], line[at.start():]
            kept = []

            def keep(m):
                kept.append(m.group(0))
                return f"\x00{len(kept) - 1}\x00"

            code = STRING.sub(keep, code)
            code = WORD.sub(lambda m: table.get(m.group(0), m.group(0)), code)
            code = re.sub(r"\x00(\d+)\x00", lambda m: kept[int(m.group(1))], code)
            note = re.sub(r"`([^`]+)`", lambda m: "`" + WORD.sub(lambda w: table.get(w.group(0), w.group(0)), m.group(1)) + "`", note)
            return code + note

        new = "\n".join(line_of(l) for l in content[p].split("\n"))
        if new != content[p]:
            changed += 1
            with open(p, "w", encoding="utf-8") as f:
                f.write(new)
    print(f"{len(of)} names of several files, {sum(map(len, by_file.values()))} of one; {changed} files changed")
    return 0


if __name__ == "__main__":
    sys.exit(main(sys.argv[1:]))
