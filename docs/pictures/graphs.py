"""Pictures of which Graphviz (`dot`) places the boxes and the arrows: the floors of the crates, and a put's pages and rounds."""
import importlib.machinery
import importlib.util
import pathlib
import re
import shutil
import subprocess
import sys

from sheets import BLUE, DASHES, EDGE, FAINT, GREY, ORANGE, PAPER, SOFT, TOP, WIDTH, Sheet, fields, text_of, width_of, wrapped

PUT_ROW = TOP / "crates" / "test_scripts" / "data" / "4-plan-of-a-put"


def placed(graph):
    """Has Graphviz place a graph, from the top left. Returns the boxes by name, each as its middle and its size, and the arrows with their points."""
    if not shutil.which("dot"):
        sys.exit("docs/draw: this picture needs Graphviz (dot)")
    printed = subprocess.run(["dot", "-Tplain"], input=graph, stdout=subprocess.PIPE, text=True, check=True).stdout
    boxes, arrows, height = {}, [], 0
    for words in map(str.split, printed.splitlines()):
        if words[0] == "graph":
            height = float(words[3])
        elif words[0] == "node":
            x, y, *size = (float(it) for it in words[2:6])
            boxes[words[1]] = (72 * x, 72 * (height - y), 72 * size[0], 72 * size[1])
        elif words[0] == "edge":
            at = [float(it) for it in words[4 : 4 + 2 * int(words[3])]]
            arrows.append((words[1], words[2], [(72 * x, 72 * (height - y)) for x, y in zip(at[::2], at[1::2])]))
    return boxes, arrows


# The floors of the crates

FLOOR_LEFT, FLOOR_TOP, ROW_PITCH = 184, 96, 56
# By how much the graph is made narrower.
FLOOR_WIDE = 0.69


def layers():
    """Returns docs/list-layers as a module."""
    sys.dont_write_bytecode = True
    loader = importlib.machinery.SourceFileLoader("layers", str(TOP / "docs" / "list-layers"))
    module = importlib.util.module_from_spec(importlib.util.spec_from_loader("layers", loader))
    loader.exec_module(module)
    return module


def direct(below):
    """Returns of each crate those that it stands on, but for those that another one of them stands on too."""
    reached = {}

    def reach(name):
        if name not in reached:
            reached[name] = set(below[name]).union(*(reach(it) for it in below[name]))
        return reached[name]

    return {name: [it for it in rest if not any(it in reach(other) for other in rest)] for name, rest in below.items()}


def floor_rows():
    """Returns the floors from the top, each with its rows of crates, and what each crate stands on directly."""
    module = layers()
    named, below = module.floors()
    heights, floors = module.heights(below), []
    for title, crates in reversed(named):
        level = {}
        for name in sorted(crates, key=heights.get):
            level[name] = 1 + max((level[it] for it in below[name] if it in level), default=0)
        floors.append((title, [[it for it in crates if level[it] == row] for row in range(max(level.values()), 0, -1)]))
    return floors, direct(below)


def floors_graph():
    """Returns the crates as a graph, in rows."""
    floors, below = floor_rows()
    rows = [row for _, rows in floors for row in rows]
    lines = ["digraph {", "  ranksep=0.417; nodesep=0.1; node [shape=box, label=\"\", height=0.361, fixedsize=true]; edge [arrowsize=0.7];"]
    for number, row in enumerate(rows):
        boxes = " ".join(f"{it} [width={(width_of(it, 12) + 8) / 72 / FLOOR_WIDE:.2f}];" for it in row)
        lines.append(f"  {{ rank=same; row_{number} [style=invis, width=0]; {boxes} }}")
    lines.append(f"  {' -> '.join(f'row_{number}' for number in range(len(rows)))} [style=invis];")
    lines += [f"  {name} -> {{ {' '.join(rest)} }};" for name, rest in below.items() if rest]
    lines += [f"  // {len(rows)} rows: {title}" for title, rows in floors]
    return "\n".join([*lines, "}", ""])


def fill_of_crate(name):
    return ORANGE if name.startswith("law_") else BLUE if name.startswith("cs_") else GREY


def draw_floors():
    sheet = Sheet("The floors of the crates", "An arrow leads from a crate to one that it stands on. Arrows that follow from others are left out.")
    sheet.legend([("code", {"fill": BLUE}), ("laws: no code, but what is proved", {"fill": ORANGE}), ("tests and an example", {"fill": GREY})])
    boxes, arrows = placed(floors_graph())
    wide, top = FLOOR_WIDE, FLOOR_TOP
    if WIDTH - 6 < FLOOR_LEFT + wide * max(x + w / 2 for x, _, w, _ in boxes.values()):
        sys.exit("docs/draw: the floors are too wide for the picture: FLOOR_WIDE makes them narrower")
    for number, (title, rows) in enumerate(floor_rows()[0]):
        sheet.box(0, top, WIDTH, ROW_PITCH * len(rows), fill=FAINT if number % 2 == 0 else PAPER, line="none", round=0)
        heading = wrapped(title, FLOOR_LEFT - EDGE, 11)
        sheet.lines(EDGE, top + ROW_PITCH * len(rows) / 2 + 4 - 7 * (len(heading) - 1), title, FLOOR_LEFT - EDGE, size=11, gap=3)
        top += ROW_PITCH * len(rows)
    down = FLOOR_TOP + ROW_PITCH / 2 - min(y for _, y, _, _ in boxes.values())
    for tail, _, points in arrows:
        if not tail.startswith("row_"):
            sheet.path([(FLOOR_LEFT + wide * x, down + y) for x, y in points], arrow=True, curved=True, line=SOFT)
    for name, (x, y, w, h) in boxes.items():
        if not name.startswith("row_"):
            sheet.box(FLOOR_LEFT + wide * (x - w / 2), down + y - h / 2, wide * w, h, fill=fill_of_crate(name))
            sheet.text(FLOOR_LEFT + wide * x, down + y + 4, name, size=12, at="middle")
    return sheet


# A put's pages and rounds

PUT_BOX = (150, 66)


def put_row(end):
    """Returns a file of the stored run of that put."""
    return pathlib.Path(f"{PUT_ROW}{end}").read_text(encoding="utf-8")


def put_plan():
    """Returns the graph of the put's plan, as the program prints it."""
    return text_of("put", ".dot")


def put_graph():
    """Returns the graph of a put's plan, with boxes that have room for what a write is."""
    width, height = (it / 72 for it in PUT_BOX)
    size = f"style=solid, fixedsize=true, width={width:.2f}, height={height:.2f}"
    return put_plan().replace("style=solid", size, 1).replace("rankdir=RL;", "rankdir=RL; ranksep=1.4; nodesep=0.3;", 1)


def rounds_of(graph):
    return [re.findall(r"^    (\w+);", it, re.M) for it in re.findall(r"subgraph .*?^  }", graph, re.M | re.S)]


def put_faults():
    """Compares the graph of a put's plan with the stored run of the same put."""
    ran = put_row(".stdout")
    rounds = [it.split() for it in re.findall(r"^round \d+: (.*)", ran, re.M)]
    chain = re.search(r"^chain: (.*)", ran, re.M)[1].split()
    bold = re.findall(r"^  (\w+) \[penwidth=2\];", put_plan(), re.M)
    same = rounds == rounds_of(put_graph()) and chain == bold
    return [] if same else [f"docs/pictures/put.dot: other rounds or another chain than in {PUT_ROW.relative_to(TOP)}.stdout"]


def draw_put():
    about = "cs_cli graph draws the plan: an arrow leads from a write to one that it waits for. A round is written in any order, and then flushed."
    sheet = Sheet("A put and its sync: four pages in two rounds", about)
    boxes, arrows = placed(put_graph())
    pages = dict(re.findall(r"^issue (\w+) page (\d+)", put_row(".stdout"), re.M))
    what = dict(fields(text_of("put")))
    left, top = (WIDTH - max(x + w / 2 for x, _, w, _ in boxes.values()) - min(x - w / 2 for x, _, w, _ in boxes.values())) / 2, 102
    for number, members in enumerate(rounds_of(put_graph()), 1):
        spans = [boxes[it] for it in members]
        x, y = left + min(x - w / 2 for x, _, w, _ in spans) - 14, top + min(y - h / 2 for _, y, _, h in spans) - 30
        right, bottom = left + max(x + w / 2 for x, _, w, _ in spans) + 14, top + max(y + h / 2 for _, y, _, h in spans) + 32
        sheet.box(x, y, right - x, bottom - y, fill=FAINT, line=SOFT, round=8)
        sheet.text((x + right) / 2, y + 19, f"round {number}", weight="bold", at="middle")
        sheet.text((x + right) / 2, bottom - 10, "flush", at="middle")
    bold = set(re.findall(r"^  (\w+ -> \w+) \[penwidth=2\]", put_plan(), re.M))
    for tail, head, points in arrows:
        sheet.path([(left + x, top + y) for x, y in points], arrow=True, curved=True, thick=3 if f"{tail} -> {head}" in bold else 1)
    for name, (x, y, w, h) in boxes.items():
        goes = name in pages
        chain = re.search(rf"^  {name} \[penwidth=2\]", put_plan(), re.M)
        sheet.box(left + x - w / 2, top + y - h / 2, w, h, fill=BLUE if goes else PAPER, thick=3 if chain else 1, dashes="" if goes else DASHES)
        sheet.text(left + x, top + y - 14, f"{name}: page {pages[name]}" if goes else name, weight="bold", at="middle")
        sheet.lines(left + x, top + y + 5, what[name], w - 12, size=12, at="middle")
    written = [("written", {"fill": BLUE}), ("never written: s3 stands for it", {"dashes": DASHES})]
    sheet.legend([*written, ("chain: each waits for the one before", {"thick": 3})], sheet.height + 16)
    return sheet
