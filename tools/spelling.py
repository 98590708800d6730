#!/usr/bin/env python3
"""Brings the names that this repository declares in specs/ and proofs/ to the spelling of today's Rattle.

usage: python3 tools/spelling.py [FOLDER]     FOLDER: a checkout in which port.py ran; this one where none is named

Words (functions, lemmas, fields, constructors) are in snake case: `littleBytes` is `little_bytes`, `read-then-written`
is `read_then_written`. What is a type is in camel case: `noneOf` is `NoneOf`. Names from Rust, exported names and the
library's names stay, and so do the names that Rattle makes for the goals of a proof. A lemma that would have the name
of its function, or of the library's, gets `_lem`. README.md, CHANGELOG.md and the pages of docs/ follow where they name
such a word.

It prints each new name, and where two words of one file became one.
"""

import os
import re
import sys

WORD = r"[A-Za-z0-9_'′-]"
NAME = r"[A-Za-z_]" + WORD + "*"
DECLARED = re.compile(r"^(?:(?:pub|abbrev|unfoldable|data|record)\s+)*(" + NAME + r"|◌[^\s◌]+◌)\s*(?:[({].*?)?\s*:(?!=)\s*(.*)$")
INNER = re.compile(r"^\s+(?:(?:pub|abbrev|unfoldable)\s+)*(" + NAME + r")\s*:(?!=)\s*(.*)$")
ALIAS = re.compile(r"^use \S+ as (" + NAME + r")$", re.M)
IMPORT = re.compile(r"^(?:ghost )?use ([^\s{]+)\.\{([^}]*)\}", re.M)
GOAL = re.compile(r"\b(?:tie|goal)\.(?:Need-|need-)?(" + NAME + ")")


def files(root, endings):
    for folder, dirs, names in os.walk(root):
        dirs[:] = sorted(d for d in dirs if d not in ("out", ".git"))
        for name in sorted(names):
            if name.endswith(endings):
                yield os.path.join(folder, name)


def read(path):
    with open(path, encoding="utf-8") as file:
        return file.read()


def snake(name):
    words = re.sub(r"(?<=[a-z0-9])(?=[A-Z])", "_", name).replace("-", "_").replace("′", "'")
    return words.lower()


def camel(name):
    return "".join(part[:1].upper() + part[1:] for part in re.split(r"[-_]", name))


def own_crate(root, module):
    found = re.match(r"Rattle\.(\w+)\.", module)
    return bool(found) and os.path.isdir(os.path.join(root, "crates", found.group(1)))


def imported(root, text):
    """The names that a file takes from the library."""
    names = set()
    for found in IMPORT.finditer(text):
        if not own_crate(root, found.group(1)):
            for item in found.group(2).split(","):
                names.update(part.strip() for part in item.split(" as "))
    return names


def declared(root):
    """Each name that a file of specs/ or proofs/ declares, with the new one."""
    kinds, goals = {}, set()
    for path in files(os.path.join(root, "crates"), (".antt",)):
        text = read(path)
        if path.endswith("Proof.antt"):
            goals.update(GOAL.findall(text))
        kinds.update((name, False) for name in ALIAS.findall(text) if name[0].islower())
        for line in text.split("\n"):
            if re.match(r"\s*(?:use|mod|pub mod|infix|unfolding|--)(?:\s|$)", line):
                continue
            found = DECLARED.match(line) or INNER.match(line)
            if found:
                is_type = not line[:1].isspace() and re.search(r"(?:^|→ )Type(?: \d+)?$", found.group(2).strip())
                kinds[found.group(1)] = kinds.get(found.group(1), False) or bool(is_type)
    new = {}
    for name, is_type in kinds.items():
        if name in goals and not name.endswith("-spec") or re.match(r"returns-\d+$", name):
            continue
        if name.startswith("◌"):
            turned = name.replace("-", "_")
            name, turned = name.strip("◌"), turned.strip("◌")
        elif name[0].isupper():
            turned = name
        else:
            turned = camel(name) if is_type else snake(name)
        new[name] = turned
    taken = set().union(*(imported(root, read(path)) for path in files(os.path.join(root, "crates"), (".antt",))))
    words = {turned for name, turned in new.items() if "-" not in name}
    for name, turned in new.items():
        if turned != name and (turned in taken or "-" in name and turned in words):
            new[name] = turned + "_lem"
    return {name: turned for name, turned in new.items() if name != turned}


def pattern(names):
    longest_first = sorted(names, key=lambda name: (-len(name), name))
    return re.compile(r"(?<![A-Za-z0-9_'′◌-])(?:" + "|".join(map(re.escape, longest_first)) + r")(?![A-Za-z0-9_'′-])")


def turn(text, new, keep=()):
    known = [name for name in new if name not in keep]
    return pattern(known).sub(lambda found: new[found.group(0)], text)


def tokens(text):
    return set(re.findall(r"(?<!" + WORD + ")" + NAME, re.sub(r"--.*|//.*", "", text)))


def write(path, text):
    with open(path, "w", encoding="utf-8") as file:
        file.write(text)


def main():
    root = sys.argv[1] if len(sys.argv) > 1 else os.path.join(os.path.dirname(os.path.realpath(__file__)), "..")
    new = declared(root)
    operators = {"◌" + name + "◌": "◌" + turned + "◌" for name, turned in new.items()}
    for name, turned in sorted(new.items()):
        print(f"{name} -> {turned}")
    for path in files(os.path.join(root, "crates"), (".antt", ".rt", ".edit")):
        text = read(path)
        keep = imported(root, text)
        out = turn(text, new, keep)
        for name, turned in operators.items():
            out = out.replace(name, turned)
        if out != text:
            write(path, out)
        before, after = tokens(text), tokens(out)
        if len(after) < len(before):
            came = {}
            for name in before:
                came.setdefault(new.get(name, name) if name not in keep else name, []).append(name)
            for name, names in sorted(came.items()):
                if len(names) > 1:
                    print(f"together: {os.path.relpath(path, root)}: {', '.join(sorted(names))}")
    pages = [os.path.join(root, "README.md"), os.path.join(root, "CHANGELOG.md")]
    pages += files(os.path.join(root, "docs"), (".md",))
    for path in pages:
        text = read(path)
        out = re.sub(r"`[^`\n]+`", lambda found: turn(found.group(0), new), text)
        if out != text:
            write(path, out)


main()
