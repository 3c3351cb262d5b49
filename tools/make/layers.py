"""Makes the picture of the layers in docs/ARCHITECTURE.md, from crates.txt and the page's table of layers.

    tools/ks make layers

crates.txt has a heading for each layer, a comment of one word, and the table a row. It is told where a crate stands
behind no heading, where the two have other headings or another order of them, or a heading other crates; where a
crate stands twice, or before one that it stands on, and where one stands on a crate of tests. The last heading is
that of the crates which have tests alone; they are in no picture. An arrow of it goes from a layer to one that its
crates stand on; one that follows from two others is left out."""
import re

from keystore.harness import TOP, parser_of

PAGE = TOP / "docs/ARCHITECTURE.md"
BEGIN, END = "```mermaid\nflowchart TB\n", "```\n"
LAYERS, TESTS = "| Layer | Crates |", "tests"
WIDTH = 40


def headed(text):
    """The layers of the text of crates.txt with their crates, in its order; before the first heading the layer has
    no name. And what each crate stands on."""
    layers, below = [("", [])], {}
    for line in text.splitlines():
        heading = re.fullmatch(r"# (\w+)", line)
        row = line.split("#")[0].strip()
        if heading:
            layers.append((heading[1], []))
        elif row:
            name = row.split(":")[0].split()[0]
            layers[-1][1].append(name)
            below[name] = row.split(":")[1].split()
    return layers, {crate: [it for it in names if it in below] for crate, names in below.items()}


def tabled(page):
    """The layers of the page's table with their crates."""
    rows = page[page.index(LAYERS) :].split("\n\n")[0].splitlines()[2:]
    cells = [[cell.strip() for cell in row.strip("|").split("|")] for row in rows]
    return [(row[0], re.findall(r"`(\w+)`", row[1])) for row in cells]


def faults_in(text, page):
    """Where crates.txt and the page's table of layers do not agree, or crates.txt has no good order."""
    (bare, *layers), below = headed(text)
    table = tabled(page)
    yield from (f"{it} has no layer: it stands in crates.txt before the first heading" for it in bare[1])
    names, named = [it for it, _ in layers], [it for it, _ in table]
    if names != named:
        yield f"crates.txt has the headings {' '.join(names)}, and the table of docs/ARCHITECTURE.md {' '.join(named)}"
    if TESTS in names[:-1]:
        yield f"the heading {TESTS} is not the last one of crates.txt"
    for layer, crates in layers:
        told = dict(table).get(layer, [])
        yield from (
            f"{it} has the layer {layer} in crates.txt, and not in docs/ARCHITECTURE.md"
            for it in crates
            if it not in told
        )
        yield from (
            f"{it} has the layer {layer} in docs/ARCHITECTURE.md, and not in crates.txt"
            for it in told
            if it not in crates
        )
    order = [it for _, crates in (bare, *layers) for it in crates]
    yield from (f"{it} stands twice in crates.txt" for it in sorted(set(order)) if order.count(it) > 1)
    tests = dict(layers).get(TESTS, [])
    for crate, names in below.items():
        late = [it for it in names if order.index(it) > order.index(crate)]
        yield from (f"{crate} stands in crates.txt before {it}, on which it stands" for it in late)
        yield from (f"{crate} stands on {it}, which has tests alone" for it in names if it in tests)


def faults():
    """The same of the files as they are."""
    return list(faults_in((TOP / "crates.txt").read_text(encoding="utf-8"), PAGE.read_text(encoding="utf-8")))


def lines_of(names):
    """Names in lines of some forty letters."""
    lines = [""]
    for name in names:
        if lines[-1] and len(lines[-1]) + 1 + len(name) > WIDTH:
            lines.append("")
        lines[-1] = f"{lines[-1]} {name}".strip()
    return "<br/>".join(lines)


def picture(below, layers):
    """The picture's text: each layer with its crates, the highest first, and its arrows."""
    of = {it: number for number, (_, of_layer) in enumerate(layers) for it in of_layer}
    under = [
        {of[it] for crate in of_layer for it in below[crate]} - {number} for number, (_, of_layer) in enumerate(layers)
    ]
    through = []
    for direct in under:
        through.append(set().union(direct, *(through[it] for it in direct)))
    text = "".join(f'    {name}["<b>{name}</b><br/>{lines_of(of_layer)}"]\n' for name, of_layer in reversed(layers))
    for number in reversed(range(len(layers))):
        direct = [it for it in under[number] if not any(it in through[other] for other in under[number] - {it})]
        text += "".join(f"    {layers[number][0]} --> {layers[it][0]}\n" for it in sorted(direct, reverse=True))
    return text


def parts_of_page():
    """The page before its picture, the picture, and what stands behind it."""
    before, rest = PAGE.read_text(encoding="utf-8").split(BEGIN, 1)
    return before, *rest.split(END, 1)


def wanted_picture():
    (_, *layers), below = headed((TOP / "crates.txt").read_text(encoding="utf-8"))
    return picture(below, [it for it in layers if it[0] != TESTS])


def main():
    parser_of(__doc__).parse_args()
    told = faults()
    if told:
        print("\n".join(told))
        return 1
    before, _, behind = parts_of_page()
    PAGE.write_text(before + BEGIN + wanted_picture() + END + behind, encoding="utf-8")
    return 0
