"""Pictures as SVG."""

from xml.sax.saxutils import escape, quoteattr

from ido_tools.fault import write_bytes

FONT = "font-family='DejaVu Sans Mono, monospace' font-size='11'"


LETTER = 7

# A picture of many steps is cut into bands of at most so many, each at most so wide.
BAND_STEPS, BAND_WIDTH = 160, 1_280
MOST_STEP, LEAST_STEP = 16, 8


class Drawing:
    """Shapes on a white ground."""

    def __init__(self):
        self.shapes = []
        self.width = self.height = 0

    def grow(self, right, bottom):
        """The picture is at least so large."""
        self.width, self.height = max(self.width, right), max(self.height, bottom)

    def box(self, left, top, width, height, fill, title=None, stroke="none"):
        """A filled box, with a text that is shown where the pointer rests on it."""
        self.grow(left + width, top + height)
        inner = f"<title>{escape(title)}</title>" if title else ""
        shape = f"<rect x='{left:g}' y='{top:g}' width='{width:g}' height='{height:g}' fill='{fill}' stroke='{stroke}'>{inner}</rect>"
        self.shapes.append(shape)

    def line(self, start, end, colour, title=None, width=1.5, dashes=None):
        """A line between two points, perhaps a broken one."""
        self.grow(max(start[0], end[0]), max(start[1], end[1]))
        inner = f"<title>{escape(title)}</title>" if title else ""
        ends = f"x1='{start[0]:g}' y1='{start[1]:g}' x2='{end[0]:g}' y2='{end[1]:g}'"
        broken = f" stroke-dasharray='{dashes}'" if dashes else ""
        self.shapes.append(f"<line {ends} stroke='{colour}' stroke-width='{width:g}'{broken}>{inner}</line>")

    def circle(self, centre, radius, fill, title=None, stroke="black"):
        """A circle."""
        self.grow(centre[0] + radius, centre[1] + radius)
        inner = f"<title>{escape(title)}</title>" if title else ""
        where = f"cx='{centre[0]:g}' cy='{centre[1]:g}' r='{radius:g}'"
        self.shapes.append(f"<circle {where} fill='{fill}' stroke='{stroke}'>{inner}</circle>")

    def text(self, left, baseline, text, colour="black", title=None):
        """A text on one line."""
        self.grow(left + LETTER * len(text), baseline + 4)
        inner = f"<title>{escape(title)}</title>" if title else ""
        self.shapes.append(f"<text x='{left:g}' y='{baseline:g}' fill={quoteattr(colour)} {FONT}>{escape(text)}{inner}</text>")

    def write(self, path):
        """Makes the file."""
        width, height = self.width + 10, self.height + 10
        head = f"<svg xmlns='http://www.w3.org/2000/svg' width='{width:g}' height='{height:g}' viewBox='0 0 {width:g} {height:g}'>"
        ground = f"<rect width='{width:g}' height='{height:g}' fill='white'/>"
        write_bytes(path, "\n".join([head, ground, *self.shapes, "</svg>", ""]).encode())


class Bands:
    """Steps from left to right, in bands one below another where there are many."""

    TOP, AXIS = 40, 22

    def __init__(self, first, past, height, letters):
        self.first, self.past, self.height = first, past, height
        count = past - first
        self.left = 24 + LETTER * min(24, letters)
        wide = max(1, (count + BAND_STEPS * 40 - 1) // (BAND_STEPS * 40))
        self.steps = BAND_STEPS * wide if count > BAND_STEPS else max(1, count)
        self.step = max(LEAST_STEP / wide, min(MOST_STEP, BAND_WIDTH / self.steps))

    def all(self):
        """The numbers of the bands."""
        return range(-(-(self.past - self.first) // self.steps))

    def top(self, band):
        """Where a band begins."""
        return self.TOP + band * (self.height + self.AXIS + 16)

    def bottom(self):
        """Where the last band ends, its steps' numbers among it."""
        return self.top(self.all()[-1]) + self.height + self.AXIS

    def across(self, event):
        """The band of an event, and where it stands there."""
        band, within = divmod(event - self.first, self.steps)
        return band, self.left + self.step * within

    def pieces(self, first, past):
        """The parts of a stretch of events: the band of each, its left and its right."""
        while first < past:
            band, left = self.across(first)
            end = min(past, self.first + (band + 1) * self.steps)
            yield band, left, left + self.step * (end - first)
            first = end

    def axis(self, drawing, band):
        """The numbers of a band's steps."""
        start = self.first + band * self.steps
        end = min(self.past, start + self.steps)
        top = self.top(band) + self.height
        drawing.line((self.left, top), (self.left + self.step * (end - start), top), "#bbbbbb", None, 1)
        every = next(it for it in (1, 2, 5, 10, 20, 50, 100, 200, 500, 1_000, 2_000, 5_000, 10_000, 20_000, 50_000, 10**9) if it * self.step >= 50)
        for event in range(-(-start // every) * every, end, every):
            at = self.across(event)[1]
            drawing.line((at, top), (at, top + 4), "#888888", None, 1)
            drawing.text(at, top + 14, str(event), "#555555")
