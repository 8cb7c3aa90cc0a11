#!/usr/bin/env python3
"""Respells the repository's own definitions and lemmas: usage: python3 tools/respell.py [ROOT]

Run once, at the top, on what port.py left. Names that are declared in crates/*/specs/*.antt or crates/*/proofs/*.antt
(definitions, lemmas, fields, constructors) and hold a dash become snake case, types upper camel case: at-gate is at_gate,
every-getD every_get_or, One-answer OneAnswer. Names that Rattle makes (loop-x-preserved, returns-in_ok-f, goal.NAME), names
of the kit's library, functions of src/, strings and comments of src/ keep theirs. With --dry it only prints.
"""

import os
import re
import sys

TOKEN = re.compile(r"[^\s(){}\[\],;:.\"⌜⌝λ∥|]+")
DECLARED = re.compile(r"\s*(?:(?:abbrev|unfoldable|pub|data|record|constructor)\s+)*([^\s(){}\[\],;:.λ⌜⌝|]+)(?=\s+[({][^)}]*[)}]|\s*:\s|\s+as\s)")
HEAD = re.compile(r"\s*(?:abbrev |unfoldable |pub )*(?:record|data)\s+(?:pub\s+)?(\S+)")


def files(root, ends):
    for folder, dirs, names in os.walk(os.path.join(root, "crates")):
        dirs[:] = sorted(d for d in dirs if d != "out")
        for name in sorted(names):
            if name.endswith(ends):
                yield os.path.join(folder, name)


def lies_open(path):
    """A file of specs/, or of lemmas right in proofs/: what stands there has names of our own."""
    folder = os.path.basename(os.path.dirname(path))
    return folder in ("specs", "proofs")


def declared(root):
    names, top = set(), set()
    for path in files(root, ".antt"):
        if not lies_open(path):
            continue
        with open(path, encoding="utf-8") as f:
            for line in f:
                if line.lstrip().startswith(("use ", "--")):
                    continue
                for m in (HEAD.match(line), DECLARED.match(line)):
                    if m and "-" in m.group(1):
                        names.add(m.group(1))
                        if not line.startswith(" "):
                            top.add(m.group(1))
    return names, top


def respelled(name):
    name = name.replace("getD", "get-or")
    parts = [p for p in name.split("-")]
    if parts[0][:1].isupper():
        return "".join(p[:1].upper() + p[1:] for p in parts)
    return "_".join(p if p[:1].isupper() and len(p) > 1 else p for p in parts)


def in_source(root):
    """The names of functions and ghost fields of src/."""
    names = set()
    for path in files(root, ".rt"):
        with open(path, encoding="utf-8") as f:
            names |= set(re.findall(r"\bfn (\w+)|\bghost (\w+):", f.read()))
    return {n for pair in names for n in pair if n}


def outside_strings(body, turn):
    return "".join(part if part.startswith('"') else turn(part) for part in re.split(r'("(?:[^"\\]|\\.)*")', body))


def imported(text):
    """The names that a text brings in from the kit's library, and those that a proof file takes from what Rattle makes."""
    kept = set()
    for m in re.finditer(r"use\s+Rattle\.std\.[\w.']*\.\{([^}]*)\}", text):
        kept |= {w.split(" as ")[-1].strip() for w in m.group(1).split(",")}
    for m in re.finditer(r"use\s+Rattle\.\w+\.(?:proofs\.[\w.+']*\.(?:Goals|Given)|specs\.contracts[\w.+']*)\.\{([^}]*)\}", text):
        kept |= {w.split(" as ")[-1].strip() for w in m.group(1).split(",")}
    return kept


def main(argv):
    dry = "--dry" in argv
    rest = [a for a in argv if a != "--dry"]
    root = rest[0] if rest else "."
    names, top = declared(root)
    taken = in_source(root)
    to = {n: respelled(n) for n in names}
    to = {n: s + "_lem" if n in top and s in taken else s for n, s in to.items()}
    seen = {}
    for n in sorted(to):
        if to[n] in seen:
            sys.exit(f"respell: {n} and {seen[to[n]]} would fall together")
        seen[to[n]] = n
    tokens = {}
    texts = {}
    for path in files(root, (".antt", ".rt")):
        with open(path, encoding="utf-8") as f:
            texts[path] = f.read()
        for t in set(TOKEN.findall(texts[path])):
            tokens.setdefault(t, set()).add(path)
    for n in sorted(to):
        if to[n] in tokens:
            print(f"look: {n} becomes {to[n]}, which stands already in {' '.join(sorted(os.path.relpath(p, root) for p in tokens[to[n]])[:4])}")
    for path, text in sorted(texts.items()):
        kept = imported(text)
        lines = []
        for line in text.split("\n"):
            own = line
            if path.endswith(".antt") and not lies_open(path):
                # a line that answers a goal names what Rattle makes
                head = re.match(r"(?:abbrev )?(?:pub )?(\S+) : goal\.", line)
                if head:
                    kept.add(head.group(1))
            cut = len(own)
            if path.endswith(".rt"):
                comment = own.find("//")
                cut = comment if comment >= 0 else cut
            body, tail = own[:cut], own[cut:]
            turn = lambda part: TOKEN.sub(lambda m: to[m.group(0)] if m.group(0) in to and m.group(0) not in kept else m.group(0), part)
            body = outside_strings(body, turn) if path.endswith(".rt") else turn(body)
            lines.append(body + tail)
        new = "\n".join(lines)
        if new != text:
            if dry:
                print("would change " + os.path.relpath(path, root))
            else:
                with open(path, "w", encoding="utf-8") as f:
                    f.write(new)
    print(f"respell: {len(to)} names")


if __name__ == "__main__":
    main(sys.argv[1:])
