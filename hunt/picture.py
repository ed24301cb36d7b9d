"""The picture of a hunt: a row for each kind and handler of single interrupts, a square for each of pairs, red
where traces differ."""
SAME, OTHER, CELL, LEFT = "#9dbfe0", "#c0392b", 14, 190


def cell(x, y, width, differs, height=11):
    return f'<rect x="{x}" y="{y}" width="{width}" height="{height}" fill="{OTHER if differs else SAME}"/>'


def text(x, y, said, anchor="start"):
    escaped = said.replace("&", "&amp;").replace("<", "&lt;")
    return f'<text x="{x}" y="{y}" text-anchor="{anchor}">{escaped}</text>'


def runs(cells):
    """Cells of one row, joined where neighbours agree: (first place, number, whether it differs)."""
    joined = []
    for place, differs in sorted(cells.items()):
        if joined and joined[-1][2] == differs and joined[-1][0] + joined[-1][1] == place:
            joined[-1][1] += 1
        else:
            joined.append([place, 1, differs])
    return joined


def row(cells, first, y, height, unit):
    return [
        cell(LEFT + (place - first) * unit, y, number * unit, differs, height)
        for place, number, differs in runs(cells)
    ]


def single_rows(plans, found, first, unit, y):
    parts = []
    for kind, handler in sorted({plan[:2] for plan in plans if plan[3] is None}):
        cells = {plan[2]: plan in found for plan in plans if plan[3] is None and plan[:2] == (kind, handler)}
        parts += [text(LEFT - 8, y + 11, f"{kind}, {handler}", "end"), *row(cells, first, y, 13, unit)]
        y += 17
    return parts, y


def pair_squares(plans, found, first, unit, y):
    """The first interrupt's cycle to the right, the second one's downwards."""
    parts, height = [], 2
    for kind, handler in sorted({plan[:2] for plan in plans if plan[3] is not None}):
        mine = [plan for plan in plans if plan[3] is not None and plan[:2] == (kind, handler)]
        low, high = min(plan[3] for plan in mine), max(plan[3] for plan in mine)
        parts.append(text(LEFT - 8, y + 11, f"{kind}, {handler}", "end"))
        by_second = {}
        for plan in mine:
            by_second.setdefault(plan[3], {})[plan[2]] = plan in found
        for second, cells in by_second.items():
            parts += row(cells, first, y + (second - low) * height, height, unit)
        y += (high - low + 1) * height + 12
    return parts, y


def picture_of(plans, found, title):
    """An SVG of all plans; `found` are those whose traces differ."""
    found = set(found)
    first, last = min(plan[2] for plan in plans), max(plan[2] for plan in plans)
    unit = max(1, min(CELL, 900 // (last - first + 1)))
    parts, y = single_rows(plans, found, first, unit, 50)
    parts += [text(LEFT, y + 14, f"one interrupt: its cycle, {first} to {last}")]
    more, y = pair_squares(plans, found, first, unit, y + 30)
    parts += more
    if more:
        said = "two interrupts: the first one's cycle to the right, the second one's downwards"
        parts.append(text(LEFT, y + 6, said))
        y += 20
    width = max(760, LEFT + (last - first + 1) * unit + 20)
    head = [
        f'<svg xmlns="http://www.w3.org/2000/svg" width="{width}" height="{y + 10}" '
        'font-family="sans-serif" font-size="12">',
        f'<rect width="{width}" height="{y + 10}" fill="white"/>',
        text(10, 18, title),
        cell(10, 28, 11, False),
        text(26, 38, "equal traces"),
        cell(130, 28, 11, True),
        text(146, 38, "the secrets give different traces"),
    ]
    return "\n".join([*head, *parts, "</svg>", ""])
