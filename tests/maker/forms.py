#!/usr/bin/env python3
"""The lister's other forms, and the picture of the season, beside what this script reads in the sheets itself.

    forms.py FOLDER WORK      FOLDER has the built programs, WORK is an empty folder

Text is made into a sheet again, which has the same bytes. Graph and table are read back and say what the sheet says.
docs/season.svg shows the season of today. Where dot is on the PATH it draws the season, and the worst names, without a
warning. It ends with a message at the first difference.
"""

import contextlib
import csv
import html
import io
import random
import re
import shutil
import subprocess
import sys
import xml.etree.ElementTree as xml
from collections import Counter, namedtuple
from pathlib import Path

ROOT = Path(__file__).resolve().parents[2]
sys.dont_write_bytecode = True
sys.path.insert(0, str(ROOT / "examples"))
import maker  # noqa: E402

RULES = ["sum", "difference", "smallest", "largest", "share", "choice", "count", "at-least"]
PARENTS = {"difference": 2, "share": 2, "choice": 3, "at-least": 2}  # those that have no other number
KEEPS = ["nokeep", "keep"]
SPREADS = ["defer", "renew", "forget (as defer)"]
ORDERED = set(PARENTS)
PRINTABLE = [chr(code) for code in range(33, 127)]

# Of an entry the rule is 0.
Item = namedtuple("Item", "name rule keep spread parents", defaults=(0, 0, 0, ()))
Graph = namedtuple("Graph", "nodes edges frames")


def fail(what):
    sys.exit(f"tests/maker/forms.py: {what}")


def expect(same, what):
    if not same:
        fail(what)


# ---- Sheets in bytes ----


def field(tag, content):
    return bytes([tag]) + len(content).to_bytes(2, "little") + content


def sheet_of(items, edition=1):
    fields = [field(1, edition.to_bytes(2, "little") + len(items).to_bytes(2, "little"))]
    for item in items:
        name = item.name.encode("ascii")
        front = bytes([item.rule, item.keep, item.spread, len(item.parents)])
        numbers = b"".join(parent.to_bytes(2, "little") for parent in item.parents)
        fields.append(field(3, front + numbers + name) if item.rule else field(2, name))
    return b"".join(fields) + field(4, b"")


def items_of(sheet):
    items, at = [], 7
    while sheet[at] != 4:
        length = int.from_bytes(sheet[at + 1 : at + 3], "little")
        content = sheet[at + 3 : at + 3 + length]
        if sheet[at] == 2:
            items.append(Item(content.decode("ascii")))
        else:
            end = 4 + 2 * content[3]
            parents = tuple(int.from_bytes(content[k : k + 2], "little") for k in range(4, end, 2))
            items.append(Item(content[end:].decode("ascii"), *content[:3], parents))
        at += 3 + length
    return items


def rule_of(item):
    return RULES[item.rule - 1] if item.rule else ""


# ---- The sheets that are tried ----


def every_figure():
    """Each rule with each keep and spread, with as few parents as it takes and as many."""
    items = [Item(f"e{k}") for k in range(16)]
    for rule, word in enumerate(RULES, 1):
        for keep in (0, 1):
            for spread in (0, 1):
                for count in {PARENTS.get(word, 1), PARENTS.get(word, 16)}:
                    parents = tuple((rule + 3 * k) % 16 for k in range(count))
                    items.append(Item(f"f{len(items)}", rule, keep, spread, parents))
    return items


def worst_names():
    """Each character alone, and words that mean something elsewhere; each name has a child, some are shared."""
    words = r"""
        edition entry figure sum keep defer = 17 * a#b #note 0 -1 null [] {a|b} <b> <i>x</i> -> -- ; // /* */ %s %n
        \N \n \G \l \\ \" "" ", ,, "a,b" "= &amp; &#65; &lt; &; =1+1 +1 -1 @SUM(A1) ' '=1 ABCDEFGHIJKLMNOP
        a.b a."b a.\ a.&amp; a..b a. .a . .. a.b.c.d same same cod.cod cod""".split()
    names = [name for name in PRINTABLE + words + [16 * c for c in "&\"\\"] if name != "#"]
    items = [Item("#0"), *map(Item, names)]
    for parent in range(len(items)):
        name = f"#{len(items)}" if parent % 7 == 0 else items[parent].name
        items.append(Item(name if name != "#0" else "child", 1 + parent % 2, 0, 0, (parent, 0)))
    return items


def random_items(chance):
    """Of a few names or of any, so that some are shared; no figure is above level 64."""
    few = chance.random() < 0.5
    items, levels = [], []
    for number in range(chance.randint(1, 60)):
        name = "".join(chance.choices("ab" if few else PRINTABLE, k=chance.randint(1, 2 if few else 16)))
        if re.fullmatch("#[0-9]*", name):
            name = f"#{number}"
        low = [k for k in range(number) if levels[k] < 64]
        if not low or chance.random() < 0.3:
            items.append(Item(name))
            levels.append(0)
            continue
        rule = chance.randint(1, len(RULES))
        count = PARENTS.get(RULES[rule - 1]) or chance.choice((1, 2, 3, 16))
        parents = tuple(chance.choice(low[-5:]) for _ in range(count))
        items.append(Item(name, rule, chance.randint(0, 1), chance.randint(0, 1), parents))
        levels.append(1 + max(levels[parent] for parent in parents))
    return items


def most_items():
    items = [Item("E"), Item("cod")]
    while len(items) < 4096:
        number = len(items)
        items.append(Item(f"F{number % 4000}.{number % 3}", 1, 0, 0, (0, 1 if number % 64 == 2 else number - 1)))
    return items


def federation(work, *count):
    folder = work / "federation"
    subprocess.run([sys.executable, ROOT / "examples/federation.py", folder, *count], check=True)
    return make(folder / "sheet.txt", work)


def sheets(work):
    """Names and bytes."""
    for name in ("example", "season"):
        yield name, make(ROOT / f"examples/{name}.txt", work)
    yield "federation", federation(work)
    yield "larger federation", federation(work, "46")
    yield "every figure", sheet_of(every_figure())
    yield "every figure in edition 2", sheet_of(every_figure(), 2)
    yield "worst names", sheet_of(worst_names())
    yield "one item in edition 2", sheet_of([Item("A")], 2)
    yield "1,024 items in edition 2", sheet_of(most_items()[:1024], 2)
    yield "4,096 items", sheet_of(most_items(), 2)
    chance = random.Random(20)
    for number in range(100):
        yield f"random sheet {number}", sheet_of(random_items(chance), chance.randint(1, 2))


# ---- Text ----


def make(text, work):
    """The maker's bytes for the text."""
    with contextlib.redirect_stderr(io.StringIO()) as said:
        status = maker.main(["sheet", str(text), str(work / "made.bin")])
    expect(status == 0, f"the maker does not take {text.name}: {said.getvalue()}")
    return (work / "made.bin").read_bytes()


def check_text(name, sheet, shown, work):
    (work / "listed.txt").write_bytes(shown)
    expect(make(work / "listed.txt", work) == sheet, f"{name}: its text makes another sheet")


# ---- Table ----


def check_table(name, sheet, shown):
    text = shown.decode("ascii")
    expect(text.count("\n") == text.count("\r\n") == len(items_of(sheet)) + 1, f"{name}: lines of the table")
    head, *rows = csv.reader(io.StringIO(text, newline=""), strict=True)
    expect(head == "item,name,sort,level,rule,keep,spread,parents,parent names".split(","), f"{name}: the head")
    expect(not any(cell[:1] in ("=", "+", "-", "@") for row in rows for cell in row if cell), f"{name}: a formula")
    items, levels = items_of(sheet), []
    for number, (item, row) in enumerate(zip(items, rows)):
        levels.append(1 + max(levels[parent] for parent in item.parents) if item.rule else 0)
        words = ["figure", str(levels[-1]), rule_of(item), KEEPS[item.keep], SPREADS[item.spread]]
        numbers = " ".join(map(str, item.parents))
        names = " ".join(items[parent].name for parent in item.parents)
        wanted = [str(number), item.name, *(words if item.rule else ["entry", "0", "", "", ""]), numbers, names]
        plain = [cell[1:] if cell.startswith("'") else cell for cell in row]
        expect(plain == wanted, f"{name}: {row} is not {wanted}")


# ---- Graph ----

TOKEN = re.compile(r'\s*("(?:[^"\\]|\\.)*"|->|[\[\]{}=;]|[A-Za-z_0-9.]+)')


class Tokens:
    """The tokens of a graph, taken one after another."""

    def __init__(self, text):
        self.text, self.at = text.strip(), 0

    def next(self):
        """The next one, which is left; nothing at the end."""
        found = TOKEN.match(self.text, self.at)
        expect(found or self.at == len(self.text), f"the graph has {self.text[self.at : self.at + 40]!r}")
        return found[1] if found else ""

    def take(self, wanted=None):
        token = self.next()
        expect(token and wanted in (None, token), f"the graph has {token}, not {wanted}")
        self.at = TOKEN.match(self.text, self.at).end()
        return token

    def takes(self, token):
        """Takes the next one if it is this."""
        return self.next() == token and bool(self.take())


def label_text(token):
    """What Graphviz shows for a label in quotes."""
    plain = re.sub(r"\\(.)", lambda found: "\n" if found[1] == "n" else found[1], token[1:-1])
    return html.unescape(plain)


def attributes(tokens):
    found = {}
    while tokens.takes("["):
        while not tokens.takes("]"):
            key = tokens.take()
            tokens.take("=")
            expect(key not in found, f"attribute {key} twice")
            found[key] = tokens.take()
    return found


def read_block(tokens, key):
    """The attribute of a block in braces, and its nodes."""
    tokens.take("{")
    tokens.take(key)
    tokens.take("=")
    value, nodes = tokens.take(), []
    tokens.take(";")
    while not tokens.takes("}"):
        nodes.append(int(tokens.take()))
        tokens.take(";")
    return value, nodes


def read_statement(tokens, graph, entries):
    """Reads a node, an edge or what holds for all of a sort. Entries have a style of their own."""
    first = tokens.take()
    head = int(tokens.take()) if tokens.takes("->") else None
    found = attributes(tokens)
    tokens.take(";")
    if head is not None:
        graph.edges[int(first), head, found.get("label", '""')[1:-1]] += 1
    elif first not in ("graph", "node", "edge"):
        expect(int(first) not in graph.nodes, f"node {first} twice")
        graph.nodes[int(first)] = label_text(found["label"])
        entries += [int(first)] if found.get("style") == "filled" else []


def read_graph(text):
    """The graph, the nodes that look like entries, and those in the column."""
    tokens, graph, entries, column = Tokens(text), Graph({}, Counter(), {}), [], []
    for token in ("digraph", "sheet", "{"):
        tokens.take(token)
    while not tokens.takes("}"):
        if tokens.next() == "{":
            value, column = read_block(tokens, "rank")
            expect(value == "same", f"rank {value}")
        elif tokens.takes("subgraph"):
            title = tokens.take()
            value, members = read_block(tokens, "label")
            expect(title.startswith("cluster_") and title not in graph.frames, f"frame {title}")
            graph.frames[title] = (label_text(value), members)
        else:
            read_statement(tokens, graph, entries)
    expect(tokens.next() == "", "something follows the graph")
    return graph, entries, column


def check_graph(name, sheet, shown):
    """Gives the graph."""
    items = items_of(sheet)
    graph, entries, column = read_graph(shown.decode("ascii"))
    labels = {n: f"{item.name}\n{rule_of(item)}" if item.rule else item.name for n, item in enumerate(items)}
    expect(graph.nodes == labels, f"{name}: the nodes are others")
    edges = Counter()
    for number, item in enumerate(items):
        for place, parent in enumerate(item.parents, 1):
            edges[parent, number, str(place) if rule_of(item) in ORDERED else ""] += 1
    expect(graph.edges == edges, f"{name}: the edges are others")
    expect(column == entries == [n for n, item in enumerate(items) if not item.rule], f"{name}: the column of entries")
    groups = {}
    for number, item in enumerate(items):
        group = item.name.split(".")[1] if "." in item.name else ""
        if group:
            groups.setdefault(group, []).append(number)
    expect(dict(graph.frames.values()) == groups and len(graph.frames) == len(groups), f"{name}: the frames")
    return graph


# ---- Picture ----


def read_picture(text):
    """The graph that an SVG of dot shows; of frames the labels alone."""
    nodes, edges, frames = {}, Counter(), {}
    space = "{http://www.w3.org/2000/svg}"
    for group in xml.fromstring(text).iter(f"{space}g"):
        title = group.findtext(f"{space}title")
        label = "\n".join(line.text or "" for line in group.iter(f"{space}text"))
        if group.get("class") == "node":
            nodes[int(title)] = label
        elif group.get("class") == "edge":
            edges[(*map(int, title.split("->")), label)] += 1
        elif group.get("class") == "cluster":
            frames[title] = label
    return Graph(nodes, edges, frames)


def check_picture(name, graph, text):
    labels = {title: label for title, (label, _) in graph.frames.items()}
    expect(read_picture(text) == graph._replace(frames=labels), f"{name}: the picture is of another sheet")


def check_season(graph):
    path = ROOT / "docs/season.svg"
    text = path.read_text(encoding="utf-8")
    check_picture("docs/season.svg, which make picture draws", graph, text)
    expect(len(text) < 500_000 and "<!--" not in text and "graphviz version" not in text, "docs/season.svg: its text")


def draw(name, graph, shown):
    done = subprocess.run(["dot", "-Tsvg"], input=shown, capture_output=True, check=False)
    said = done.stderr.decode("utf-8", "replace")
    expect(done.returncode == 0 and not re.search("^(Warning|Error)", said, re.M), f"{name}: dot says {said}")
    check_picture(f"{name}, as dot draws it", graph, done.stdout.decode("utf-8"))


def main(lister, work):
    drawn = {"example", "season", "worst names", "every figure"} if shutil.which("dot") else set()
    for name, sheet in sheets(work):
        (work / "sheet.bin").write_bytes(sheet)
        shown = {}
        for option in ("--text", "--dot", "--csv"):
            done = subprocess.run([lister, option, work / "sheet.bin"], capture_output=True, check=False)
            expect(done.returncode == 0 and not done.stderr, f"{name}: lister {option} says {done.stderr}")
            shown[option] = done.stdout
        check_text(name, sheet, shown["--text"], work)
        check_table(name, sheet, shown["--csv"])
        graph = check_graph(name, sheet, shown["--dot"])
        if name == "season":
            check_season(graph)
        if name in drawn:
            draw(name, graph, shown["--dot"])


if __name__ == "__main__":
    main(Path(sys.argv[1]).resolve() / "lister", Path(sys.argv[2]).resolve())
