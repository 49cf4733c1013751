"""What the scripts here read of the definitions: of a file of crates/*/specs what it brings in, its declarations with their lines, and which others each of
them cites; and what the claims rest on. Fails where it can't read a file."""
import functools
import os
import re
import sys

CLAIMS = ("audit", "Claims")
DECLARATION = re.compile(r"(?:(?:abbrev|unfoldable) )?pub (?:record |data )?([^\s(){}]+)")
MIXFIX = "◌"


def fail(message):
    sys.exit(f"specs: {message}")


def path_of(crate, module):
    return f"crates/{crate}/specs/{module}.antt"


@functools.lru_cache(maxsize=None)
def text_of(path):
    with open(path, encoding="utf-8") as file:
        return file.read()


def code_of(line):
    """A line without its comment."""
    return re.split(r"(?:^|\s)--(?:\s|$)", line)[0].rstrip()


class Brought:
    """What the `use` lines of a file bring in: names of definitions, of other modules (`use .. as x`), of structs and enums of src/, and of the kit. A name is
    ("definition", crate, module, name) or ("struct", crate, path in src); of an enum's module a variant is ("struct", crate, path in src, variant)."""

    def __init__(self, path):
        self.names, self.modules, self.kit = {}, {}, {}
        for line in re.findall(r"^use .*", text_of(path), re.M):
            form = re.fullmatch(r"use ([\w.]+?)(?:\.\{([^{}]+)\}| as (\S+))", line)
            if not form:
                fail(f"{path} has `{line}`, which can't be read")
            where, listed, alias = form.groups()
            place = re.fullmatch(r"Rattle\.(\w+)\.specs\.(?:(declared|contracts)\.)?([\w.]+)", where)
            for one in listed.split(",") if listed else ["*"]:
                name, _, called = (alias and f"* as {alias}" or one.strip()).partition(" as ")
                called = called or name
                if not place or place[1] == "std":
                    self.kit[called] = (where.removeprefix("Rattle."), name)
                elif place[2] == "contracts":
                    self.modules[called] = None  # what was proved of a call's code
                elif place[2] == "declared":
                    type_of = place[3].removesuffix(".TheVariants")
                    (self.modules if name == "*" else self.names)[called] = ("struct", place[1], type_of)
                elif name == "*":
                    self.modules[called] = (place[1], place[3])
                else:
                    self.names[called] = ("definition", place[1], place[3], name)


    def files(self):
        """The files of definitions that it brings in."""
        places = [place[1:3] for place in self.names.values() if place[0] == "definition"]
        return list(dict.fromkeys([*places, *(place for place in self.modules.values() if place and place[0] != "struct")]))


class Declaration:
    """One declaration of a file: its name, the lines it takes with the comment above it, the line of its name, and its text."""

    def __init__(self, name, first, last, lines):
        self.name, self.first, self.last, self.lines = name, first, last, lines
        self.at = last - len(lines) + 1
        self.code = "\n".join(code_of(line) for line in lines)


def is_clause(name, line):
    """Whether a line begins a clause of that definition: with its name, or with its sign between arguments."""
    line = line.lstrip()
    if MIXFIX in name:
        return bool(re.match(".*? ?" + ".*? ?".join(map(re.escape, filter(None, name.split(MIXFIX)))) + ".* =( |$)", line))
    return bool(re.match(re.escape(name) + r"(?: [^:]*)?(?: =|$)", line))


def commented(lines, k, after):
    """The lines, from the first on and before the last, of what begins at k and of the comment above it; the comment of what comes after isn't its own."""
    first, last = k, after
    while first > 0 and lines[first - 1].lstrip().startswith("--"):
        first -= 1
    while not lines[last - 1].strip() or lines[last - 1].lstrip().startswith("--") or re.match(r"module _ |infix", lines[last - 1]):
        last -= 1
    return first, last


@functools.lru_cache(maxsize=None)
def brought(path):
    return Brought(path)


@functools.lru_cache(maxsize=None)
def declarations(crate, module):
    """{name: declaration} of a file, in order. Of a module of parameters what stands in it is declared like the rest."""
    path = path_of(crate, module)
    lines = text_of(path).split("\n")
    depth, starts, mutual = "", [], False
    for k, line in enumerate(lines):
        if re.match(r"module _ .* where$", line):
            depth = "  "
        elif re.match(r"(?:unfoldable )?mutual$", line):
            depth, mutual = "  ", True
            continue
        elif mutual and line[:1] not in ("", " ", "-"):
            depth, mutual = "", False
        form = DECLARATION.match(line.removeprefix(depth)) if line.startswith(depth) and not line.startswith(depth + " ") else None
        if form and form[1] != "mod":
            starts.append((k, form[1]))
        elif line[:1] not in ("", " ", "-", "}") and not re.match(r"use |module _ |pub mod |infix[lr]? ", line) and not (starts and is_clause(starts[-1][1], line)):
            fail(f"{path}:{k + 1} can't be read: `{line}`")
    found = {}
    for (k, name), after in zip(starts, [*(k for k, _ in starts[1:]), len(lines)]):
        first, last = commented(lines, k, after)
        inner = re.match(" *", lines[k])[0] if lines[k].lstrip().startswith("pub data") else ""
        found[name] = Declaration(name, first + 1, last, [line.removeprefix(inner) for line in lines[k:last]])
    return found


def fields(declaration):
    """{field: declaration} of a record, a field's comment with it; the lines are the file's."""
    lines, head = declaration.lines, declaration.at
    starts = [(k, form[1]) for k, line in enumerate(lines) if (form := re.match(r"  pub (\S+) :", line))]
    found = {}
    for (k, name), after in zip(starts, [*(k for k, _ in starts[1:]), len(lines)]):
        first, last = commented(lines, k, after)
        found[name] = Declaration(name, head + first, head + last - 1, lines[k:last])
    return found


def owner(crate, module, name):
    """The declaration of that name, or that of the data whose constructor it is."""
    found = declarations(crate, module)
    if name in found:
        return name
    for other, one in found.items():
        if one.code.startswith("pub data") and re.search(r"^  " + re.escape(name) + r" :", one.code, re.M):
            return other
    fail(f"{path_of(crate, module)} declares no {name}")


def bound(code):
    """The names that a text binds itself: parameters, arguments of a clause and of a λ."""
    names = set()
    for group in re.findall(r"[({]([^(){}:=]+) : ", code):
        names.update(group.split())
    for group in re.findall(r"λ ([^.]+)\. ", code):
        names.update(re.findall(r"[^\s():]+", group.split(" : ")[0]))
    for left in re.findall(r"^(.*?) =(?: |$)", re.sub(r"\n +(?== )", " ", code), re.M):  # a long left side has its `=` on the next line
        if not set(":→{").intersection(left):
            words = re.split(r"[\s()]+", left.strip())
            is_sign = any(not re.search(r"\w", word) for word in words if word)  # the name stands between the arguments
            names.update(word for word in words[0 if is_sign else 1:] if word[:1].islower())
    names.update(re.findall(r"^ +(\S+) ← ", code, re.M))  # of a step in a `do`
    return names - {"zero", "suc", "true", "false", "pos", "negsuc"}


def scopes(declaration):
    """The parts of a declaration in which a name that is bound means the same: each clause, each field, and what stands before these."""
    parts = [[]]
    for line in declaration.code.split("\n"):
        if re.match(r"  pub \S+ :", line) or is_clause(declaration.name, line):
            parts.append([])
        parts[-1].append(line)
    return ["\n".join(part) for part in parts]


def cited(crate, module, code):
    """The definitions, structs and words of the kit that a text in a file names; what it binds itself means none."""
    path = path_of(crate, module)
    use, own, local = brought(path), declarations(crate, module), bound(code)
    signs = {part: name for name in (*use.kit, *use.names, *own) if MIXFIX in name for part in name.split(MIXFIX) if part}
    for word in re.split(r"[\s(){};,@]+", code):
        if word in signs:
            word = signs[word]
        first, *rest = [word] if MIXFIX in word else word.split(".")
        if not first or first in local:
            continue
        if first in use.modules and rest:
            place = use.modules[first]
            if place and place[0] == "struct":
                yield (*place, rest[0])
            elif place:
                yield ("definition", *place, owner(*place, rest[0]))
        elif first in use.names:
            kind, *place = use.names[first]
            yield (kind, *place[:2], owner(*place)) if kind == "definition" else (kind, *place)
        elif first in use.kit:
            yield ("kit", *use.kit[first])
        elif first in own:
            yield ("definition", crate, module, first)


def declared(crate, module, name):
    """A declaration; RECORD.FIELD is a field of a record."""
    record, _, field = name.partition(".")
    found = declarations(crate, module).get(record)
    if found and field:
        found = fields(found).get(field)
    return found or fail(f"{path_of(crate, module)} declares no {name}")


def cited_by(one):
    """What a definition cites."""
    _, crate, module, name = one
    names = [other for part in scopes(declared(*one[1:])) for other in cited(crate, module, part)]
    return [other for other in dict.fromkeys(names) if other != one and other != ("definition", crate, module, name.partition(".")[0])]


def reached(roots, at=()):
    """All that some definitions reach; what a definition of `at` cites isn't looked at."""
    seen, todo = [], list(roots)
    while todo:
        one = todo.pop()
        if one in seen:
            continue
        seen.append(one)
        if one[0] == "definition" and one[1:] not in at and one[1:3] not in at:
            todo += cited_by(one)
    return seen
