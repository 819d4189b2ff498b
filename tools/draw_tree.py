#!/usr/bin/env python3
"""Draws the tree that an exam search walked, as SVG.

    ./exam < docs/sheets/d.txt | python3 tools/draw_tree.py docs/sheets/d.txt > docs/drawings/d.svg

The program's output comes on standard input; n and t are read from the sheet's first line.
Nothing else goes into the drawing, so equal outputs for equal n and t give equal bytes.
"""

import sys

BOX, LEVEL, TOP, LEFT, GAP, DIGIT = 44, 96, 24, 96, 28, 8.5

STYLE = """
  .paper { fill: #ffffff } .ink { fill: #1f2328 } .faint { fill: #57606a }
  .edge { stroke: #57606a; stroke-width: 1.5 }
  .light { fill: #ffffff; stroke: #57606a; stroke-width: 1.5 }
  .kept { fill: #0b6bcb; stroke: #0b6bcb; stroke-width: 1.5 } .on { fill: #ffffff }
  .heavy { fill: none; stroke: #0b6bcb; stroke-width: 2.5 }
  text { font: 14px ui-monospace, Menlo, Consolas, monospace; text-anchor: middle }
  .total { font-weight: bold; font-size: 16px } .note { font-family: system-ui, sans-serif; text-anchor: start }
  @media (prefers-color-scheme: dark) {
    .paper { fill: #0d1117 } .ink { fill: #e6edf3 } .faint { fill: #9da7b3 }
    .edge { stroke: #9da7b3 } .light { fill: #0d1117; stroke: #9da7b3 }
    .kept { fill: #58a6ff; stroke: #58a6ff } .on { fill: #0d1117 } .heavy { stroke: #58a6ff }
  }
"""


def read_sheet(path):
    """n and t of a sheet."""
    with open(path, encoding="ascii") as sheet:
        n, t = sheet.readline().split(" ")[:2]
    return int(n), int(t)


def read_output(output, n, t):
    """The totals by prefix, the number of queries and the heavy strings; the output must be as the search rule orders."""
    if output.startswith("refused"):
        sys.exit("a refused sheet has no tree")
    lines = [line.split(" ") for line in output.splitlines()]
    totals = {line[0]: int(line[-1]) for line in lines if line[-1].isdecimal() and line[0] != "heavy"}
    queried, queries, kept = [], 0, [""]
    while kept and queries < n:
        query = [prefix + bit for prefix in kept for bit in "01"]
        kept = [prefix for prefix in query if totals.get(prefix, -1) >= t]
        queried, queries = queried + query, queries + 1
    expected = [f"{prefix} {totals.get(prefix)}" for prefix in queried] + [f"heavy {string}" for string in kept]
    if output != "\n".join(expected) + "\n":
        sys.exit(f"this is not the output of a search with n = {n} and t = {t}")
    return totals, queries, kept


def places(totals, slot):
    """The middle of each prefix's box from left to right; a parent stands between its children."""
    across, leaves = {}, 0
    for prefix in sorted(totals, key=lambda p: [int(b) for b in p] + [2]):
        if prefix + "0" in totals:
            across[prefix] = (across[prefix + "0"] + across[prefix + "1"]) / 2
        else:
            across[prefix] = LEFT + slot * (leaves + 0.5)
            leaves += 1
    across[""] = (across["0"] + across["1"]) / 2
    return across, leaves


def text(x, y, words, kind="ink"):
    return f'<text x="{x:g}" y="{y:g}" class="{kind}">{words}</text>'


def box(x, y, width, kind, grow=0):
    left, top = x - width / 2 - grow, y - BOX / 2 - grow
    return f'<rect x="{left:g}" y="{top:g}" width="{width + 2 * grow:g}" height="{BOX + 2 * grow}" rx="{6 + grow}" class="{kind}"/>'


def node(x, y, width, bits, total, kept, heavy):
    """A box with a prefix's bits and its total: filled if kept, with a second outline if heavy."""
    on = "on" if kept else "ink"
    parts = [box(x, y, width, "kept" if kept else "light")]
    if heavy:
        parts.append(box(x, y, width, "heavy", 5))
    return parts + [text(x, y - 5, bits, on), text(x, y + 15, total, f"total {on}")]


def walked(totals, heavy, t):
    """The tree: the empty prefix as a point, an edge with its bit above each node, and the nodes."""
    width = max(BOX, DIGIT * max(map(len, totals)) + 16)
    across, leaves = places(totals, width + GAP)
    edges, nodes = [], [f'<circle cx="{across[""]:g}" cy="{TOP}" r="5" class="faint"/>']
    for prefix, total in totals.items():
        parent, x, y = prefix[:-1], across[prefix], TOP + LEVEL * len(prefix)
        above, begin, end = across[parent], y - LEVEL + (BOX / 2 if parent else 0), y - BOX / 2
        edges.append(f'<line x1="{above:g}" y1="{begin:g}" x2="{x:g}" y2="{end:g}" class="edge"/>')
        aside = 12 if prefix[-1] == "1" else -12
        edges.append(text((above + x) / 2 + aside, (begin + end) / 2 + 3, prefix[-1]))
        nodes += node(x, y, width, prefix, total, total >= t, prefix in heavy)
        if prefix in heavy:
            nodes.append(text(x, y + BOX / 2 + 22, "heavy"))
    return edges + nodes, LEFT + (width + GAP) * leaves


def legend(top, n, t):
    """What the boxes and the point mean."""
    rows = [
        (True, False, f"kept: the total is at least {t}"),
        (False, False, f"not kept: the total is below {t}"),
        (True, True, f"heavy: kept at the full length, n = {n}"),
    ]
    parts = []
    for i, (kept, heavy, words) in enumerate(rows):
        y = top + 60 * i
        parts += node(50, y, 56, "bits", "total", kept, heavy)
        parts.append(text(96, y + 5, words, "note ink"))
    y = top + 60 * len(rows) - 14
    parts.append(f'<circle cx="50" cy="{y:g}" r="5" class="faint"/>')
    parts.append(text(96, y + 5, "the empty prefix, which is never queried", "note ink"))
    return parts, y + 28


def draw(totals, queries, heavy, n, t):
    """The whole drawing."""
    tree, wide = walked(totals, heavy, t)
    marks = [text(16, TOP + LEVEL * (k + 1) + 5, f"query {k + 1}", "note faint") for k in range(queries)]
    if queries < n:
        found = f"Ended before length {n}: nothing was kept."
    else:
        found = f"{len(heavy) or 'No'} heavy string{'' if len(heavy) < 2 else 's'}."
    bottom = TOP + LEVEL * queries + BOX / 2
    key, high = legend(bottom + 90, n, t)
    wide = max(wide + 16, 460)
    told = ", ".join(f"{prefix} {total}" for prefix, total in totals.items())
    parts = [
        f'<svg xmlns="http://www.w3.org/2000/svg" viewBox="0 0 {wide:g} {high:g}" width="{wide:g}" height="{high:g}" role="img">',
        f"<title>The searched tree for n = {n} and t = {t}</title>",
        f"<desc>Queried prefixes and their totals: {told}. {found}</desc>",
        f"<style>{STYLE}</style>",
        '<rect width="100%" height="100%" rx="8" class="paper"/>',
        *tree,
        *marks,
        text(16, bottom + 50, f"n = {n}, t = {t}. {found}", "note ink"),
        *key,
        "</svg>",
    ]
    return "\n".join(parts) + "\n"


def main():
    if len(sys.argv) != 2:
        sys.exit("usage: draw_tree.py SHEET < OUTPUT > DRAWING")
    n, t = read_sheet(sys.argv[1])
    sys.stdout.write(draw(*read_output(sys.stdin.read(), n, t), n, t))


if __name__ == "__main__":
    main()
