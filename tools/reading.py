"""What AUDIT.md and NOTATION.md show of the definitions, made by `tools/lines`: the lines to read for each of the four questions, the kit's words that all
definitions rest on, and that each sign and word is explained, with an example that stands where it is said to stand. tools/specs.py reads the definitions."""
import functools
import os
import re

from specs import CLAIMS, MIXFIX, bound, brought, cited_by, code_of, declarations, declared, fail, fields, path_of, reached, text_of

CLAIM = lambda name: ("definition", *CLAIMS, name)
LAW = lambda name: ("definition", "maps", "Laws", name)
# The claims that answer a question, and the crates' laws that they consist of.
ANSWERED = {
    "1": [CLAIM("Origins.twice")],
    "2": [CLAIM("Origins.tiles"), CLAIM("Origins.one"), CLAIM("Answers"), LAW("Laws.origin_found")],
    "3": [CLAIM("Refusals"), CLAIM("Ordering.ascends"), CLAIM("Ordering.keeps"), CLAIM("Numbers")],
    "4": [CLAIM("Claims.differing")],
}
# What a definition answers some claim says in the rules' words: no reader needs to follow what it computes on the way.
SAID = {
    ("rules", "Rules", "check_of"): CLAIM("Refusals.check"),
    ("rules", "Rules", "refusal"): CLAIM("Refusals.check"),
    ("judge", "Judge", "validate_of"): CLAIM("Refusals.validate"),
    ("judge", "Judge", "check_mcraw"): CLAIM("Refusals.check-mcraw"),
    ("table", "Layout", "uneven_sources"): CLAIM("Refusals.uneven"),
    ("table", "Layout", "uneven_rows"): CLAIM("Refusals.uneven"),
    ("lookups", "Indices", "Indexing"): CLAIM("EachFrame"),
    ("order", "Order", "sorted"): CLAIM("Ordering"),
    ("order", "Order", "mode"): CLAIM("Ordering"),
}
# The same of what a question asks of it: that these calls accept. These claims are read in its place.
ACCEPTED = {
    "1": {
        ("table_rows", "Rows", "Rowed"): CLAIM("Origins.tiles"),
        ("maps", "Answers", "Cut"): LAW("Laws.cut_gives"),
        ("maps", "Answers", "Trace"): LAW("Laws.origin_found"),
    },
}
# That each promise has one answer is claimed of it whatever it says.
WHATEVER = {"2": [("audit", "Calls")]}
NOTATION = "docs/NOTATION.md"
# An enum of more lines is read by the variants that a definition names.
LONG = 20
ROW = re.compile(r"^\| (`+)(.+?)\1 \| (.+?) \| (`+) ?(.+?) ?\4 \| (crates/\S+?\.antt)(?::\d+ \((\S+)\))? \|$", re.M)


def believed():
    """The files of definitions and quotations in the audit's specs/, and those which they reach. What only the quotations of the C face cite is claimed by `Telling`."""
    names = sorted(name.removesuffix(".antt") for name in os.listdir("crates/audit/specs"))
    files = [("audit", name) for name in names if name != "Lib"]
    for file in files:
        files += [place for place in brought(path_of(*file)).files() if place not in files and not (file == ("audit", "Face") and place[0] == "segment_table")]
    return files


def struct_lines(crate, name, variant=None):
    """The file and lines of a struct or enum, with its comment and attributes; of a long enum of its head alone, or of one variant."""
    *inside, name = name.split(".")
    path = f"crates/{crate}/src/{'/'.join(inside) or 'lib'}.rt"
    lines = text_of(path).split("\n")

    def find(form, start):
        return next((k for k in range(start, len(lines)) if re.match(form, lines[k])), None) or fail(f"{path} has no {name} {variant or ''}")

    at = find(r"(?:pub(?:\(crate\))? )?(?:struct|enum) " + name + r"\b", 0)
    end = find(r"\}$|.*;$", at)
    if variant:
        at = end = find(r"    " + variant + r"\b", at)
    elif "enum" in lines[at].split() and end - at > LONG:
        end = at
    while re.match(r" *(?://|#\[)", lines[at - 1]):
        at -= 1
    return path, at + 1, end + 1


def lower_first(files):
    """Files in an order in which each cites only those before it."""
    placed = []

    def place(file):
        if file not in placed:
            for below in brought(path_of(*file)).files():
                if below in files and below != file:
                    place(below)
            placed.append(file)

    for file in sorted(files):
        place(file)
    return placed


def merged(path, ranges):
    """Ranges of lines as one text, and how many lines they are; where only blank lines or imports lie between two, they are one."""
    lines, joined = text_of(path).split("\n"), []
    for first, last in sorted(set(ranges)):
        if joined and all(not line.strip() for line in lines[joined[-1][1]:first - 1]):
            joined[-1][1] = max(last, joined[-1][1])
        else:
            joined.append([first, last])
    return ", ".join(f"{first}-{last}" if first < last else f"{first}" for first, last in joined), sum(last - first + 1 for first, last in joined)


def head(path):
    """The lines of the comment at a file's head."""
    lines = text_of(path).split("\n")
    return next(k for k, line in enumerate(lines) if not line.startswith("--"))


def to_read(question):
    """The table of lines that a question takes, and the sentence on what is claimed elsewhere."""
    said = SAID | ACCEPTED.get(question, {})
    apart = [*said, *WHATEVER.get(question, [])]
    found = reached([*ANSWERED[question], *ACCEPTED.get(question, {}).values()], apart)
    ranges, structs = {}, {}
    for kind, *place in found:
        if kind == "definition" and tuple(place[:2]) not in apart:
            one = declared(*place)
            ranges.setdefault(tuple(place[:2]), []).append((one.first, one.last))
        elif kind == "struct":
            path, first, last = struct_lines(*place)
            structs.setdefault(path, []).append((first, last))
    rows = []
    for crate in dict.fromkeys([path.split("/")[1] for path in sorted(structs)]):
        rows += [(path, *merged(path, structs[path])) for path in sorted(structs) if path.split("/")[1] == crate]
    for file in lower_first(list(ranges)):
        path = path_of(*file)
        rows.append((path, *merged(path, [*ranges[file], *([(1, head(path))] if head(path) else [])])))
    total = sum(count for *_, count in rows)
    table = ["| File | Lines | How many |", "|---|---|---|", *(f"| {path} | {where} | {count} |" for path, where, count in rows), f"| {len(rows)} files | | {total:,} |"]
    elsewhere = {}
    for place, claim in said.items():
        if ("definition", *place) in found:
            elsewhere.setdefault(claim, []).append(f"`{place[2]}`")
    told = "; ".join(f"{' and '.join(names)} by {claim_at(claim)}" for claim, names in elsewhere.items())
    return "\n".join([*table, *(["", *wrapped(f"Said elsewhere, and so not followed: {told}.")] if told else [])])


def circular():
    """The claims that say what a definition answers in words which rest on that definition."""
    for place, claim in [*SAID.items(), *(one for some in ACCEPTED.values() for one in some.items())]:
        for other in cited_by(claim):
            if other[0] == "definition" and other[1] != "audit" and other[1:] != place and ("definition", *place) in reached([other]):
                yield f"{claim[3]} says what {place[2]} answers by {other[3]}, which rests on it"


def skipped():
    """The table of lines that no reader needs, since what they compute is said elsewhere."""
    followed = reached([CLAIM("Claims")], list(SAID))
    ranges = {}
    for kind, *place in reached([CLAIM("Claims")]):
        if kind == "definition" and (kind, *place) not in followed:
            one = declared(*place)
            ranges.setdefault(tuple(place[:2]), []).append((one.first, one.last))
    rows = [(path_of(*file), *merged(path_of(*file), ranges[file])) for file in lower_first(list(ranges))]
    total = sum(count for *_, count in rows)
    return "\n".join(["| File | Lines to skip | How many |", "|---|---|---|", *(f"| {path} | {where} | {count} |" for path, where, count in rows), f"| {len(rows)} files | | {total} |"])


def claim_at(claim):
    _, crate, module, name = claim
    return f"{path_of(crate, module)}:{declared(crate, module, name).at} ({name})"


def wrapped(text, width=120, indent=""):
    """A text in lines of at most so many characters; none begins with a bracket, so that a reference stays whole."""
    lines, line = [], ""
    for word in re.split(r" (?!\()", text):
        if line and len(line) + 1 + len(word) > width:
            lines.append(line)
            line = indent + word
        else:
            line = f"{line} {word}" if line else word
    return [*lines, line]


@functools.lru_cache(maxsize=None)
def kit_words():
    """{module of the kit: its names}: all that the files bring in of it which the claims reach."""
    words = {}
    for file in believed():
        for module, name in brought(path_of(*file)).kit.values():
            words.setdefault(module, set()).add(name)
    return {module: sorted(words[module], key=lambda name: (name.replace(MIXFIX, " "))) for module in sorted(words)}


def kit_list():
    return "\n".join(line for module, names in kit_words().items()
                     for line in wrapped(f"- `{module}`: " + ", ".join(f"`{shown(name)}`" for name in names), indent="  "))


def shown(name):
    """A word of the kit as it is written: `+` for ◌+◌."""
    return " .. ".join(part for part in name.split(MIXFIX) if part)


def own_words(files):
    """The names that files declare or bind: of definitions, fields, constructors and arguments."""
    known = set()
    for file in files:
        path = path_of(*file)
        code = "\n".join(code_of(line) for line in text_of(path).split("\n"))
        known |= {*brought(path).names, *brought(path).modules, *declarations(*file)}
        known |= {part for name in (*brought(path).kit, *brought(path).names, *declarations(*file)) for part in name.split(MIXFIX)}
        known.update(re.findall(r"^ +(?:pub )?([^\s():]+)(?: [a-z]\w*)* :", code, re.M))  # fields and constructors
        known.update(re.findall(r"([\w·'-]+) = ", code))  # fields that are given
        for one in declarations(*file).values():
            known |= bound(one.code)
            known.update(re.findall(r" ([A-Z]) ", one.code))  # an argument that is a type or a condition
    return known - {"record"}


def language(files):
    """The language's own words and signs in files, as NOTATION.md has them: what is no name that these declare, bind, or have of the kit."""
    known, words = own_words(files), set()
    for file in files:
        for line in map(code_of, text_of(path_of(*file)).split("\n")):
            if re.match(r"use |infix", line):
                words.update({line.split()[0], *(word for word in (" as ", MIXFIX) if word in line)} - {" as "} | ({"as"} if " as " in line else set()))
                continue
            if '"' in line:
                words.add('"')
                line = re.sub(r'"(?:[^"\\]|\\.)*"', " ", line)  # what stands between quotation marks is no word of the language
            words.update(sign for sign in "(){};,'·" if sign in line)
            for word in re.split(r"[\s(){};,]+", line):
                first, *rest = word.split(".") if not word.startswith(".") else ["", word]
                for part in [first, "." if rest else ""]:
                    if re.match(r"0x", part):
                        words.add("0x")
                    elif part and not re.match(r"\d", part) and part not in known:
                        words.add("«»" if part.startswith("«") else part)
    return words


def instance(sign, files):
    """A short line in which a declaration uses a sign, and the declaration, as a row of NOTATION.md ends."""
    parts = sign.replace("«»", "«").split(" .. ")
    lines = [(abs(len(line.strip()) - 40), line.strip(), path_of(*file), one.name) for file in files for one in declarations(*file).values()
             for line in one.code.split("\n") if set(parts) <= set(re.split(r"[\s();,]+", line)) or sign in "(){};,'·.\"" and sign in line]
    _, line, path, name = min(lines, default=(0, "..", "crates/NAME/specs/FILE.antt", ".."))
    return f"| `{sign}` | MEANING | `{line}` | {path}:1 ({name}) |".replace("||", "\\|\\|")


def explained(text):
    """What is wrong with NOTATION.md: a sign or word that it lacks, one that isn't used, an example that doesn't stand where it says."""
    files = believed()
    wanted = language(files) | {shown(name) for names in kit_words().values() for name in names}
    letters = {letter for file in files for line in text_of(path_of(*file)).split("\n") for letter in code_of(line) if ord(letter) > 127}
    wanted |= letters - set("".join(wanted))
    rows = [(sign.replace("\\|", "|"), example.replace("\\|", "|"), path, name) for _, sign, _, _, example, path, name in ROW.findall(text)]
    signs = [sign for sign, *_ in rows]
    if len(rows) != len(re.findall(r"^\| `", text, re.M)):
        yield "a row can't be read"
    for sign in sorted(wanted - set(signs)):
        yield f"no row for `{sign}`, which a definition uses, as in {instance(sign, files)}"
    for sign in sorted(set(signs)):
        if sign not in wanted or signs.count(sign) > 1:
            yield f"a row for `{sign}`, which no definition uses, or two"
    for section in re.split(r"^\*\*`", text, flags=re.M)[1:]:
        module = section.split("`")[0]
        for _, sign, *_ in ROW.findall(section):
            if (sign := sign.replace("\\|", "|")) in wanted and sign not in map(shown, kit_words().get(module, [])):
                yield f"`{sign}` isn't brought in from {module}"
    for sign, example, path, name in rows:
        place = re.fullmatch(r"crates/(\w+)/specs/(\w+)\.antt", path)
        if sign not in wanted:
            continue
        if not place or place.groups() not in files:
            yield f"the example of `{sign}` is taken from {path}, which no claim reaches: {instance(sign, files)}"
            continue
        record, _, field = name.partition(".")
        one = declarations(*place.groups()).get(record)
        if name and (one is None or field and field not in fields(one)):
            yield f"the example of `{sign}` is taken from {name}, which {path} doesn't declare: {instance(sign, files)}"
            continue
        code = declared(*place.groups(), name).code if name else "\n".join(map(code_of, text_of(path).split("\n")))
        if " ".join(example.split()) not in " ".join(code.split()) or not all(part in example for part in sign.replace("«»", "«").split(" .. ")):
            yield f"the example of `{sign}`, `{example}`, isn't in {path} ({name or 'anywhere'}), or doesn't show it: {instance(sign, files)}"


# What is made between two marks `NAME` of AUDIT.md.
MADE = {"kit": kit_list, "skipped": skipped, **{f"reading {question}": (lambda question=question: to_read(question)) for question in ANSWERED}}


def renewed(page, text):
    """A page with all that is made between its marks."""
    for name, make in MADE.items() if page == "docs/AUDIT.md" else ():
        text, places = re.subn(f"(<!-- {name} -->\n).*?(<!-- /{name} -->)", lambda m: f"{m[1]}\n{make()}\n\n{m[2]}", text, flags=re.S)
        if places != 1:
            fail(f"{page} hasn't the two marks of `{name}` once")
    return text


def checked(page, text):
    """Fails where a page explains what it needn't, or not what it must, or where what is said elsewhere is said by itself."""
    if page == "docs/AUDIT.md" and (faults := list(circular())):
        fail("\n".join([f"{page}:", *faults]))
    if page == NOTATION and (faults := list(explained(text))):
        fail("\n".join([f"{NOTATION}:", *faults]))
