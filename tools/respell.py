#!/usr/bin/env python3
"""Respells the repository's own definitions and lemmas: words in snake case, types in camel case.

usage: python3 tools/respell.py          at the top of the repository, once, after the toolchain's own port.py

It turns what specs/ and the lemma files of proofs/ declare, and each use of it: in .rt, .antt and .edit files the whole words outside of
comments and strings, in comments and in docs/ and README.md the words between backticks. A rule of a published grammar keeps its published
name (`dec-octet`, `h16`, `n-h16:`, `10-99`, `x30-37`). It says which new names fall together in one file.
"""

import collections
import os
import re
import sys

WORD = r"[^\s(){}\[\];,.λ@\"|`]+"
TOKEN = re.compile(WORD)
KEEP = set("dec-octet h16 ls32 IPv4address IPv6address 0-9 10-99 100-199 200-249 250-255".split())
PUBLISHED = re.compile(r"^x[0-9A-F]{2}(-[0-9A-F]{2})?$|[:*·|↦]|^→$|^_$|^[A-F]-[A-F]$|^\d")
# A lemma whose respelled name is that of the definition that it speaks of takes `_lem`; where two lemmas or constructors would fall together,
# one is named here.
OTHERS = {
    "class-A": "in_class_a", "class-B": "in_class_b", "class-C": "in_class_c",
    "X-leading": "leading_upper_x", "x-leading": "leading_lower_x", "hex-zeros-X": "hex_zeros_upper_x", "hex-zeros-x": "hex_zeros_lower_x",
    "after-0X": "after_upper_0x", "after-0x": "after_lower_0x",
}
# The port renamed these lemmas or types already, and the definition beside each falls together with them.
LEMMAS = set("block_written first_part no_address all_digits number-in".split())
# In one crate a type was renamed together with a number of another crate.
HERE = {"grammar": {"up_to": "UpTo", "up-to": "UpTo"}, "sheet_grammar": {"not_after": "NotAfter", "not-after": "NotAfter"}}


def files(root):
    for folder, dirs, names in os.walk(os.path.join(root, "crates")):
        dirs[:] = sorted(d for d in dirs if d != "out")
        for name in sorted(names):
            if name.endswith((".antt", ".rt", ".edit")):
                yield os.path.join(folder, name)


def bare(text, path):
    return re.sub(r"(?m)(//|--).*$" if path.endswith(".rt") else r"(?m)--.*$", "", text)


def snake(name):
    name = name.replace("→", "_to_").replace("≤", "_le_").replace("IPv4", "ipv4").replace("IPv6", "ipv6").replace("-", "_")
    name = re.sub(r"([a-z0-9'])([A-Z])", r"\1_\2", name)
    return re.sub(r"__+", "_", name).strip("_").lower()


def camel(name):
    return "".join(p[:1].upper() + p[1:] for p in name.split("-"))


def declared(root):
    """The names that specs/ and the lemma files of proofs/ declare, and which of them are types."""
    names, types = set(), set()
    for path in files(root):
        parts = os.path.relpath(path, root).split("/")
        if not path.endswith(".antt") or parts[2] not in ("specs", "proofs") or len(parts) != 4:
            continue
        with open(path) as f:
            text = bare(f.read(), path)
        for m in re.finditer(r"(?m)^\s*(?:abbrev |unfoldable |ruleset )*(?:pub )?((?:%s )+)(?:\([^\n]*?\) |\{[^\n]*?\} )*: " % WORD, text):
            names |= set(m.group(1).split())
        for m in re.finditer(r"(?m)^\s*(?:pub )?(?:data|record) (%s)" % WORD, text):
            names.add(m.group(1))
            types.add(m.group(1))
    words = {"pub", "let", "λ", "abbrev", "unfoldable", "data", "record", "ruleset", "use", "in", "where", "module", "elim"}
    return names - words, types


def table(root):
    names, types = declared(root)
    turned = {}
    for name in sorted(names):
        if name in KEEP or PUBLISHED.search(name) or name in OTHERS:
            continue
        if name in types:
            new = camel(name) if "-" in name else name
        elif name[0].isupper() and "-" not in name:
            new = name
        else:
            new = snake(name)
        if new != name:
            turned[name] = new
    # a lemma beside the definition of its name
    taken = {new for name, new in turned.items() if "-" not in name and "→" not in name}
    for name in list(turned):
        if "-" in name and name not in types and turned[name] in taken:
            turned[name] += "_lem"
    for name in LEMMAS & names:
        turned[name] = snake(name) + "_lem"
    return turned | OTHERS


def foreign(text, own):
    """The names that a file takes from the toolchain's library, and the short names of that library's modules."""
    names, modules = {"tie", "goal"}, {"tie", "goal"}
    for m in re.finditer(r"(?m)^\s*(?:pub )?(?:ghost )?use ([^\s;{]+?)(?:\.\{([^}]*)\}| as (\w+))", text):
        path = m.group(1).split(".")
        if path[0] == "Rattle" and path[1] in own:
            continue
        if m.group(3):
            modules.add(m.group(3))
        else:
            names |= {n.strip().split(" as ")[0].strip() for n in m.group(2).split(",")}
    return names, modules


def swap(text, turned, modules=()):
    def turn(m):
        before = re.search(r"(\w+)\.$", text[: m.start()])
        if before and before.group(1) in modules:
            return m.group()
        return turned.get(m.group(), m.group())

    return TOKEN.sub(turn, text)


def swap_quoted(text, turned):
    return re.sub(r"`[^`\n]+`", lambda m: swap(m.group(), turned), text)


def swap_code(text, turned, path, own):
    names, modules = foreign(text, own)
    turned = {a: b for a, b in turned.items() if a not in names}
    mark = "//" if path.endswith(".rt") else "--"
    out = []
    for line in text.split("\n"):
        code, sep, said = line.partition(mark)
        if path.endswith(".edit") and not re.match(r"(old|new): ", line):
            out.append(swap_quoted(line, turned))
            continue
        pieces = re.split(r'("(?:[^"\\]|\\.)*")', code)
        code = "".join(p if p.startswith('"') else swap(p, turned, modules) for p in pieces)
        out.append(code + sep + swap_quoted(said, turned))
    return "\n".join(out)


def main():
    root = os.getcwd()
    turned = table(root)
    own = set(os.listdir(os.path.join(root, "crates")))
    clash = collections.Counter()
    for path in files(root):
        crate = os.path.relpath(path, root).split("/")[1]
        mine = turned | HERE.get(crate, {})
        with open(path) as f:
            text = f.read()
        if path.endswith(".antt"):
            seen = collections.defaultdict(set)
            for word in set(TOKEN.findall(bare(text, path))):
                seen[mine.get(word, word)].add(word)
            for new, old in seen.items():
                if len(old) > 1:
                    clash[f"{new} {sorted(old)} {os.path.relpath(path, root)}"] += 1
        after = swap_code(text, mine, path, own)
        if after != text:
            with open(path, "w") as f:
                f.write(after)
    # what the toolchain's own script respelled in the crates but not in the edits and the documents
    words = set()
    for path in files(root):
        if not path.endswith(".edit"):
            with open(path) as f:
                words |= set(TOKEN.findall(f.read()))

    class Standing(dict):
        def get(self, word, default=None):
            if word in turned:
                return turned[word]
            if word not in words and re.match(r"[a-z]", word) and re.search(r"[-A-Z→]", word):
                for new in (snake(word), camel(word)):
                    if new in words:
                        return new
            return default

    for path in files(root):
        if path.endswith(".edit"):
            with open(path) as f:
                text = f.read()
            after = "\n".join(swap(line, Standing()) if re.match(r"(old|new): ", line) else swap_quoted(line, Standing()) for line in text.split("\n"))
            if after != text:
                with open(path, "w") as f:
                    f.write(after)
    for folder, _, names in os.walk(root):
        if "/.git" in folder or "/crates" in folder:
            continue
        for name in names:
            if name.endswith(".md"):
                path = os.path.join(folder, name)
                with open(path) as f:
                    text = f.read()
                after = swap_quoted(text, Standing())
                if after != text:
                    with open(path, "w") as f:
                        f.write(after)
    print("\n".join(f"falls together: {line}" for line in sorted(clash)))
    print(f"{len(turned)} names respelled")
    if "--table" in sys.argv:
        print("\n".join(f"{a} {b}" for a, b in sorted(turned.items())))


main()
