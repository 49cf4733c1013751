"""The drawings of docs/AUDIT.md, made by `tools/lines`: the clip that is cut twice, of the numbers in crates/audit/specs/Examples.antt; which claims answer a
question, and by which definitions; and what is proved, tested and trusted, from the source to the linked archive."""
import glob
import re
from xml.sax.saxutils import escape

from reading import ACCEPTED, ANSWERED, CLAIM
from specs import CLAIMS, cited_by, declared, fail, fields

EXAMPLES = ("audit", "Examples")
INK, PALE = "#222222", "#888888"
ORIGINALS = ["#9ecae1", "#fdd0a2", "#c7e9c0"]
KINDS = {"proved": "#c7e9c0", "tested": "#fff2ae", "trusted": "#e0e0e0"}


class Drawing:
    """An SVG in the making: what is drawn lies over what was drawn before."""

    def __init__(self, width, height, title):
        self.width, self.height, self.title, self.parts = width, height, title, []

    def box(self, x, y, width, height, fill):
        self.parts.append(f'<rect x="{x:g}" y="{y:g}" width="{width:g}" height="{height:g}" rx="3" fill="{fill}" stroke="{INK}" stroke-width="0.8"/>')

    def line(self, x1, y1, x2, y2, colour=INK, dashed=False, arrow=False):
        more = (' stroke-dasharray="4 3"' if dashed else "") + (' marker-end="url(#arrow)"' if arrow else "")
        self.parts.append(f'<line x1="{x1:g}" y1="{y1:g}" x2="{x2:g}" y2="{y2:g}" stroke="{colour}"{more}/>')

    def text(self, x, y, words, size=13, anchor="start", colour=INK, bold=False, mono=False):
        more = (' font-weight="bold"' if bold else "") + (' font-family="monospace"' if mono else "")
        self.parts.append(f'<text x="{x:g}" y="{y:g}" font-size="{size}" text-anchor="{anchor}" fill="{colour}"{more}>{escape(words)}</text>')

    def done(self):
        head = (f'<svg xmlns="http://www.w3.org/2000/svg" width="{self.width}" height="{self.height}" viewBox="0 0 {self.width} {self.height}"'
                f' font-family="sans-serif">\n<title>{escape(self.title)}</title>\n'
                f'<defs><marker id="arrow" markerWidth="9" markerHeight="8" refX="8" refY="4" orient="auto"><path d="M0,0 L9,4 L0,8 z" fill="{INK}"/></marker></defs>\n'
                f'<rect width="{self.width}" height="{self.height}" fill="white"/>\n')
        return head + "\n".join(self.parts) + "\n</svg>\n"


def rows_of(name):
    """The rows of a map of the examples: source, its first frame, how many, first frame in the map."""
    found = re.findall(r"(?:row|shifted) (\d+) (\d+) (\d+) (\d+)", declared(*EXAMPLES, name).code)
    return [tuple(map(int, row)) for row in found] or fail(f"{name} of the examples has no rows")


def clip():
    """Three bars, one above the other, so that what was cut away can be seen, and frame 41,200 of the last goes straight up."""
    code = declared(*EXAMPLES, "examples").code
    maps = {"the clip": ("clip_rows", 0)}
    for whole, start, end, part in re.findall(r"cut_to (clip_\w+) (\d+) (\d+) (clip_\w+)", code)[:2]:
        (before, at), = [(name, at) for name, (of, at) in maps.items() if of == whole]
        maps[{"the clip": "cut", "cut": "cut twice"}[before]] = (part, at + int(start))
    frame, source, there = map(int, re.search(r"comes clip_twice (\d+) \(origin (\d+) (\d+)", code).groups())
    drawing = Drawing(920, 340, "A clip cut twice")
    left, scale = 110, 770 / sum(row[2] for row in rows_of("clip_rows"))
    for level, (title, (name, shift)) in enumerate(maps.items()):
        y, rows = 70 + 90 * level, rows_of(name)
        x = lambda k: left + (shift + k) * scale
        total = sum(row[2] for row in rows)
        drawing.text(10, y + 24, title, bold=True)
        for of, first, count, out in rows:
            drawing.box(x(out), y, count * scale, 40, ORIGINALS[of])
            drawing.text(x(out) + 6, y + 17, f"original {of}")
            drawing.text(x(out) + 6, y + 33, f"{first:,}..{first + count:,}", 11)
            drawing.text(x(out), y + 54, f"{out:,}", 11, "middle", PALE)
        drawing.text(x(total), y + 54, f"{total:,}", 11, "middle", PALE)
        if level + 1 < len(maps):
            below, ahead = list(maps.values())[level + 1]
            for k in (ahead, ahead + sum(row[2] for row in rows_of(below))):
                drawing.line(left + k * scale, y + 40, left + k * scale, y + 90, PALE, dashed=True)
    last = list(maps.values())[-1][1]
    at = left + (last + frame) * scale
    drawing.line(at, 300, at, 44, "#b2182b", dashed=True, arrow=True)
    for level, (name, shift) in enumerate(maps.values()):
        drawing.text(at + 5, 66 + 90 * level, f"frame {last + frame - shift:,}", 12, colour="#b2182b")
    drawing.text(at, 34, f"frame {there:,} of original {source}", 13, "middle", "#b2182b", bold=True)
    drawing.text(10, 328, "In a bar: frames of the original. Under it: frames of the map. Dashed, grey: what the next cut keeps.", 11, colour=PALE)
    return drawing.done()


def said_by(claim):
    """The definitions in whose words a claim is said: what it names, and what the quotations and shorthands that it names are."""
    found, todo = [], [claim]
    while todo:
        one = todo.pop(0)
        for other in cited_by(one):
            if other[0] != "definition" or other in found or other[1:3] == ("refusal", "Refusals"):
                continue
            if other[1] == "audit":
                todo.append(other)
            else:
                found.append(other)
    return found


ASKED = {"1": "Which recording and frame lies behind a frame?", "2": "Could a second answer hold?", "3": "Is a refusal right?", "4": "How far may two tables differ?"}
# Of all calls at once: their promises aren't followed.
BROAD = [CLAIM("Answers")]


def questions():
    """A line of boxes for each claim: the question, the claim, the definitions in whose words it is said."""
    blocks = []
    for question, claims in ANSWERED.items():
        parts = []
        for claim in [*claims, *ACCEPTED.get(question, {}).values()]:
            whole = f"{claim[3]}" if claim[1:3] == CLAIMS else f"{claim[3]} ({claim[1]})"
            inner = [(*claim[:3], f"{claim[3]}.{field}") for field in fields(declared(*claim[1:]))] if claim == CLAIM("Refusals") else [claim]
            for one in inner:
                names = [("definition", "audit", "Promise", "OneAnswer")] if one in BROAD else [one] if one[1] == "refusal" else said_by(one)
                files = {}
                for _, crate, module, name in names:
                    files.setdefault(f"{crate}/specs/{module}", []).append(name)
                parts.append((whole if one == claim else one[3], [f"{file}: {', '.join(files[file])}" for file in files] or ["nothing besides"]))
        blocks.append((question, parts))
    height = 60 + sum(sum(16 * len(lines) + 16 for _, lines in parts) + 14 for _, parts in blocks)
    drawing, y = Drawing(720, height, "From question to claim to definition"), 44
    for x, words in ((10, "Question"), (240, "Claim"), (470, "Said in the words of")):
        drawing.text(x, 26, words, bold=True)
    for question, parts in blocks:
        tall = sum(16 * len(lines) + 16 for _, lines in parts) - 6
        drawing.box(10, y, 190, tall, ORIGINALS[0])
        first, rest = ASKED[question][:22].rpartition(" ")[0], ASKED[question]
        rest = rest[len(first):].strip()
        for k, words in enumerate([f"{question}. {first}", rest]):
            drawing.text(20, y + 20 + 17 * k, words)
        for claim, lines in parts:
            drawing.box(240, y, 190, 24, ORIGINALS[1])
            drawing.text(250, y + 16, claim)
            drawing.line(200, y + 12, 238, y + 12, arrow=True)
            drawing.line(430, y + 12, 458, y + 12, arrow=True)
            for k, words in enumerate(lines):
                drawing.text(465, y + 16 + 16 * k, words, 11)
            y += 16 * len(lines) + 16
        y += 14
    return drawing.done()


def there(*paths):
    """These paths, as one line; each has to be in the repository."""
    for path in paths:
        if not glob.glob(path):
            fail(f"a drawing names {path}, which isn't in the repository")
    return ", ".join(paths)


def trust():
    """From the source down to the linked archive: what each step rests on, and what holds it from either side."""
    calls, exports = len(fields(declared(*CLAIMS, "Answers"))), len(fields(declared(*CLAIMS, "Face")))
    wrong = len(glob.glob("crates/*/must-fail/*.edit"))
    middle = [
        (None, [there("crates/*/src"), "the code, each function with its contract"]),
        ("trusted", ["Rattle's front end", "gives code and contracts their meaning"]),
        ("proved", [f"each function meets its contract; {calls} calls", f"and {exports} exports have what is claimed of them"]),
        ("trusted", ["Rattle's back end", "makes a module of the proved program"]),
        ("trusted", [f"clang, once more ({there('tools/native-staticlib')})", "makes machine code of the proved module"]),
        ("tested", ["libsegment_table.a", "as C and Rust call it"]),
        ("trusted", ["a program that links it: its linker, the C", "library's memmove and memset, the machine"]),
    ]
    beside = {
        (0, 0): ("trusted", [there("docs/RULES.md"), "says in words what is right"]),
        (2, 0): ("trusted", [there("crates/*/specs"), "definitions and claims, which are read"]),
        (1, 2): ("trusted", ["Rattle's checker of proofs, and the kit's", "logic: docs/AUDIT.md, 'The toolchain'"]),
        (2, 2): ("tested", [f"{wrong} wrong programs are refused", there("crates/*/must-fail")]),
        (3, 0): ("tested", ["stored cases, as two compilers make it", there("crates/replay", "crates/*/stdin")]),
        (4, 2): ("tested", ["the Rust beside it, on millions of inputs", there("compare/README.md")]),
        (5, 0): ("tested", [there("bindings/c/run", "bindings/c/stack"), there("bindings/rust") + ": cargo test"]),
        (5, 2): ("trusted", [there("include/segment_table.h", "bindings/rust"), "made by " + there("tools/header") + ", and compared"]),
        (6, 2): ("trusted", ["a C caller lends as the header says", "('Lending', 'Overlap')"]),
    }
    drawing = Drawing(990, 90 * len(middle) + 50, "What is proved, tested and trusted, from the source to the linked archive")
    for k, (kind, colour) in enumerate(KINDS.items()):
        drawing.box(10 + 110 * k, 10, 18, 18, colour)
        drawing.text(34 + 110 * k, 24, kind)
    for level, one in enumerate(middle):
        y = 50 + 90 * level
        for column, (kind, lines) in {1: one, **{side: beside[level, side] for side in (0, 2) if (level, side) in beside}}.items():
            x = 10 + 335 * column
            drawing.box(x, y, 300, 54, KINDS.get(kind, "white"))
            for k, words in enumerate(lines):
                drawing.text(x + 150, y + 22 + 19 * k, words, 12, "middle")
            if column == 0:
                drawing.line(x + 300, y + 27, x + 334, y + 27, arrow=True)
            elif column == 2:
                drawing.line(x, y + 27, x - 34, y + 27, arrow=True)
        if level:
            drawing.line(495, y - 36, 495, y - 1, arrow=True)
    return drawing.done()


DRAWN = {"docs/clip.svg": clip, "docs/questions.svg": questions, "docs/trust.svg": trust}


def drawn():
    """{path: text} of each drawing."""
    return {path: make() for path, make in DRAWN.items()}
