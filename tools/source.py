"""What the scripts here share. Of a Rattle file: the names that its `use` lines bring in, and where each is declared; it fails where it can't read one. Of
the words that a script is given: its parser."""
import argparse
import os
import re
import sys

CRATES = os.path.join(os.path.dirname(os.path.dirname(os.path.abspath(__file__))), "crates")
USE = re.compile(r"^(?:pub(?:\(\w+\))? )?use\s+([^;]+);", re.M)


def parts(text):
    """What stands between the commas of a list; a part can be a list in braces itself."""
    found, depth = [""], 0
    for c in text:
        depth += (c == "{") - (c == "}")
        if c == "," and not depth:
            found.append("")
        else:
            found[-1] += c
    return [part.strip() for part in found if part.strip()]


def leaves(tree, path=()):
    """(name in the file, path of its module, name there) of each name that one `use` brings in; a group can have groups in it."""
    group = re.fullmatch(r"((?:\w+::)*)\{(.*)\}", tree, re.S)
    if group:
        for part in parts(group[2]):
            yield from leaves(part, path + tuple(group[1].split("::")[:-1]))
        return
    whole, _, alias = tree.partition(" as ")
    *inside, name = whole.strip().split("::")
    path += tuple(inside)
    if name == "self" and path:
        path, name = path[:-1], path[-1]
    if not all(re.fullmatch(r"\w+", word) and word not in ("self", "super") for word in (*path, name)):
        sys.exit(f"source: `use {'::'.join((*path, name))}` is written as this script can't read it")
    yield alias.strip() or name, path, name


def brought(text):
    """{name in the file: (path of its module, name there)}. A `ghost use` brings names into clauses alone, and isn't read."""
    text = re.sub(r"/\*.*?\*/|//[^\n]*|\"(?:[^\"\\]|\\.)*\"", "", text, flags=re.S)
    text = re.sub(r"\bghost use\b[^;]*;", "", text)
    found = USE.findall(text)
    if len(found) != len(re.findall(r"\buse\b", text)):
        sys.exit("source: a `use` doesn't begin its line, which this script can't read")
    return {name: (path, of) for tree in found for name, path, of in leaves(" ".join(tree.split()))}


def is_there(crate, module):
    return os.path.exists(os.path.join(CRATES, crate, "src", f"{module}.rt"))


def module_of(crate, path):
    """The crate, and the module in it, that a path names in a file of a crate: by `crate`, by a module of its own, or by another crate of the repository."""
    if path and path[0] == "crate":
        path = path[1:]
    elif path and not is_there(crate, path[0]) and is_there(path[0], "lib"):
        crate, path = path[0], path[1:]
    return crate, "/".join(path) or "lib"


def text_of(crate, module):
    with open(os.path.join(CRATES, crate, "src", f"{module}.rt"), encoding="utf-8") as file:
        return file.read()


def declared(crate, module, *path):
    """The crate, the module and the name there of what a file names by some words (`WORDS`, `ticks::NO_TIME`): brought in, under a module's name, or its own."""
    found = brought(text_of(crate, module)).get(path[0])
    if found:
        path = (*found[0], found[1], *path[1:])
    elif len(path) == 1:
        return crate, module, path[0]
    there = module_of(crate, path[:-1])
    # what a module brings in it can show as its own
    return declared(*there, path[-1]) if is_there(*there) else (*there, path[-1])


def parser(doc):
    """What reads a script's words: `--help` and `-h` answer its own text, and a word that it doesn't know is refused on standard error, with status 2."""
    return argparse.ArgumentParser(description=doc, formatter_class=argparse.RawDescriptionHelpFormatter, allow_abbrev=False)


def checks(doc):
    """Whether a script that takes `--check`, and no other word, was given it."""
    words = parser(doc)
    words.add_argument("--check", action="store_true", help="write nothing, and fail where something isn't as it would be written")
    return words.parse_args().check
