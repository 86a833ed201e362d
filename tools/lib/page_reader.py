"""What is in the pages of tools/view: the rows of tables, the sections that are shown, and the drawings."""
import html.parser
from collections import namedtuple

# The classes of what is drawn within the axes of a drawing.
INNER = {"bar", "line", "demand", "supply", "price", "bought", "sold", "skip"}

# A part of a drawing: its element, class and attributes, and the text in it, that of its title too.
Part = namedtuple("Part", "tag kind at text")


class Rows(html.parser.HTMLParser):
    """The rows of a table in a page, as that of its entries: the text of each, and whether it is hidden; and sections that aren't."""

    def __init__(self, page, name="pairs"):
        super().__init__()
        self.rows, self.shown, self.is_inside, self.cell, self.name = [], [], False, None, name
        self.feed(page)

    def handle_starttag(self, tag, attributes):
        values = dict(attributes)
        if tag == "table":
            self.is_inside = values.get("id") == self.name
        if tag == "section" and "hidden" not in values:
            self.shown.append(values.get("data-batch"))
        if self.is_inside and tag == "tr":
            self.rows.append([[], "hidden" in values])
        if self.is_inside and tag == "td":
            self.rows[-1][0].append("")
            self.cell = self.rows[-1][0]

    def handle_endtag(self, tag):
        if tag == "td":
            self.cell = None
        if tag == "table":
            self.is_inside = False

    def handle_data(self, data):
        if self.cell is not None:
            self.cell[-1] += data

    def cells(self):
        """The text of each row's cells."""
        return [cells for cells, _ in self.rows if cells]

    def text(self):
        """The rows as a report has them, without the names of refusals."""
        return "".join(" ".join(cells[:2]) + "\n" for cells in self.cells())

    def found(self):
        """The numbers of the entries that aren't hidden."""
        return [cells[0] for cells, is_hidden in self.rows if cells and not is_hidden]


class Chart:
    """A drawing: its parts, by their classes, each of which has its place in numbers."""

    def __init__(self, values):
        self.label, self.width, self.height, self.parts = values["aria-label"], float(values["width"]), float(values["height"]), []

    def all(self, kind, tag=None):
        return [part for part in self.parts if part.kind == kind and tag in (None, part.tag)]

    def outside(self):
        """The parts that reach out of the drawing, and those within its axes that reach to the left, the right or the bottom of these."""
        axis = max(self.all("axis"), key=lambda part: part.at["x2"] - part.at["x1"], default=None)
        frame = (0, self.width, 0, self.height)
        inner = (axis.at["x1"], axis.at["x2"], 0, axis.at["y1"]) if axis else frame
        return [part for part in self.parts if not is_within(part, inner if part.kind in INNER else frame)]


def corners(part):
    """The places that a part reaches."""
    at = part.at
    if part.tag == "polyline":
        return [tuple(map(float, point.split(","))) for point in at["points"].split()]
    if part.tag == "line":
        return [(at["x1"], at["y1"]), (at["x2"], at["y2"])]
    if part.tag == "circle":
        return [(at["cx"], at["cy"])]
    return [(at["x"], at["y"]), (at["x"] + at.get("width", 0), at["y"] + at.get("height", 0))]


def is_within(part, frame):
    left, right, top, bottom = frame
    return all(left - 0.2 <= x <= right + 0.2 and top - 0.2 <= y <= bottom + 0.2 for x, y in corners(part))


def number(value):
    try:
        return float(value)
    except ValueError:
        return value


class Charts(html.parser.HTMLParser):
    """The drawings of a page, and the numbers of its sections and of its options."""

    def __init__(self, page):
        super().__init__()
        self.charts, self.sections, self.options = [], [], []
        self.feed(page)

    def handle_starttag(self, tag, attributes):
        values = dict(attributes)
        if tag == "svg":
            self.charts.append(Chart(values))
        elif tag in ("line", "polyline", "circle", "rect", "text") and self.charts:
            place = {key: value if key == "points" else number(value) for key, value in values.items()}
            self.charts[-1].parts.append(Part(tag, values.get("class"), place, []))
        elif tag == "section":
            self.sections.append(values["data-batch"])
        elif tag == "option":
            self.options.append(values["value"])

    def handle_data(self, data):
        if self.charts and self.charts[-1].parts:
            self.charts[-1].parts[-1].text.append(data)
