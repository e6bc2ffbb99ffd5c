"""The pictures of docs/FIGURES.md, drawn of the stored output of program_figures; tests/planner.py writes and checks them."""
COLOURS = {"HRW": "#1b6ca8", "ring": "#c4491d", "4,096 rows": "#3d8b37", "256 rows": "#8a6d1a"}
WAYS = {"HRW": (1, 0), "ring": (2, 0), "4,096 rows": (3, 4096), "256 rows": (3, 256)}


class Picture:
    """An SVG text with a white ground; numbers in the text have one decimal at most, so that it is the same everywhere."""

    def __init__(self, width, height, title):
        self.out = [f'<svg xmlns="http://www.w3.org/2000/svg" width="{width}" height="{height}" viewBox="0 0 {width} {height}" '
                    'font-family="sans-serif" font-size="13">', f"<title>{title}</title>",
                    f'<rect width="{width}" height="{height}" fill="white"/>']
        self.text(width / 2, 24, title, "middle", 'font-size="16"')

    def text(self, x, y, words, anchor="start", more=""):
        self.out.append(f'<text x="{x:.1f}" y="{y:.1f}" text-anchor="{anchor}" {more}>{words}</text>')

    def line(self, x1, y1, x2, y2, colour="#888", more=""):
        self.out.append(f'<line x1="{x1:.1f}" y1="{y1:.1f}" x2="{x2:.1f}" y2="{y2:.1f}" stroke="{colour}" {more}/>')

    def path(self, points, colour, more="", fill="none"):
        at = " ".join(f"{x:.1f},{y:.1f}" for x, y in points)
        shape = "polyline" if fill == "none" else "polygon"
        self.out.append(f'<{shape} points="{at}" fill="{fill}" stroke="{colour}" {more}/>')

    def dot(self, x, y, r, colour, more=""):
        self.out.append(f'<circle cx="{x:.1f}" cy="{y:.1f}" r="{r}" fill="{colour}" {more}/>')

    def bar(self, x, y, width, height, colour):
        self.out.append(f'<rect x="{x:.1f}" y="{y:.1f}" width="{width:.1f}" height="{height:.1f}" fill="{colour}"/>')

    def done(self):
        return "\n".join(self.out + ["</svg>"]) + "\n"


class Panel:
    """A part of a picture with its scales; y grows upwards from 0."""

    def __init__(self, picture, left, top, width, height, x_range, y_most):
        self.picture, self.left, self.top, self.width, self.height = picture, left, top, width, height
        self.x_range, self.y_most = x_range, y_most

    def x(self, value):
        low, high = self.x_range
        return self.left + self.width * (value - low) / (high - low)

    def y(self, value):
        return self.top + self.height * (1 - value / self.y_most)

    def at(self, x, y):
        return self.x(x), self.y(y)

    def axes(self, x_marks, y_marks, x_words="", y_words="", unit="", marked=True):
        p = self.picture
        for value in y_marks:
            p.line(self.left, self.y(value), self.left + self.width, self.y(value), "#ddd")
            if marked:
                p.text(self.left - 6, self.y(value) + 4, f"{value:,}{unit}", "end")
        for value in x_marks:
            p.text(self.x(value), self.top + self.height + 18, value, "middle")
        p.line(self.left, self.y(0), self.left + self.width, self.y(0), "#333")
        p.text(self.left + self.width / 2, self.top + self.height + 38, x_words, "middle")
        p.text(self.left - 44, self.top - 12, y_words)


def shares(found):
    """Every draw a dot, the mean a bar, the theorem a dashed line."""
    p = Picture(760, 440, "Recorded share of the sessions, 8 movers at work")
    panel = Panel(p, 70, 70, 660, 290, (0.4, 4.6), 90)
    panel.axes([], range(0, 91, 10), "", "recorded", " %")
    standbys = (1, 2, 4, 8)
    for place, h in enumerate(standbys, 1):
        p.text(panel.x(place), panel.y(0) + 18, f"{h} standby" + ("s" if h > 1 else ""), "middle")
        theorem = 100 * h / (8 + h)
        p.line(panel.x(place - 0.42), panel.y(theorem), panel.x(place + 0.42), panel.y(theorem), "#000", 'stroke-dasharray="5 4"')
        for n, (name, way) in enumerate(WAYS.items()):
            x = place - 0.3 + 0.2 * n
            draws = [recorded / 200 for recorded in found["share", 8, h, *way][0]]
            for value in draws:
                p.dot(*panel.at(x, value), 2.5, COLOURS[name], 'fill-opacity="0.35"')
            mean = sum(draws) / len(draws)
            p.line(panel.x(x - 0.07), panel.y(mean), panel.x(x + 0.07), panel.y(mean), COLOURS[name], 'stroke-width="3"')
    for n, name in enumerate(WAYS):
        p.dot(90 + 120 * n, 410, 5, COLOURS[name])
        p.text(100 + 120 * n, 415, name)
    p.line(575, 410, 605, 410, "#000", 'stroke-dasharray="5 4"')
    p.text(612, 415, "theorem 4.2")
    p.text(730, 56, "a dot: one draw of mover numbers; a bar: their mean", "end", 'font-size="12"')
    return p.done()


def rotations(found):
    """The mean of the draws, the band from the lowest to the highest, and the rule."""
    from planner import rotated
    p = Picture(760, 460, "Records of 3,000 live sessions while 16 movers take turns (HRW)")
    panel = Panel(p, 70, 60, 660, 300, (0, 20), 1800)
    panel.axes(range(0, 21), range(0, 1801, 300), "rotations", "records used")
    colours = {15: "#1b6ca8", 14: "#c4491d", 12: "#3d8b37"}
    for working, colour in colours.items():
        draws = found["turns", working, 16 - working, 3000]
        each = [[line[4 * k] for line in draws] for k in range(21)]
        band = [panel.at(k, max(u)) for k, u in enumerate(each)] + [panel.at(k, min(u)) for k, u in reversed(list(enumerate(each)))]
        p.path(band, "none", 'fill-opacity="0.18"', colour)
        p.path([panel.at(k, sum(u) / len(u)) for k, u in enumerate(each)], colour, 'stroke-width="2.5"')
        p.path([panel.at(k, 3000 * rotated(working, 16 - working, k)) for k in range(21)], "#000", 'stroke-dasharray="5 4"')
    p.text(panel.x(20), panel.y(450), "a line: the mean of ten draws; its band: the lowest to the highest", "end", 'font-size="12"')
    p.line(*panel.at(0, 188), *panel.at(20, 188), "#888", 'stroke-dasharray="2 3"')
    p.text(panel.x(20), panel.y(188) - 6, "3,000 x 1 / 16: one standby, if the movers didn't rotate", "end", 'font-size="12"')
    for n, (working, colour) in enumerate(colours.items()):
        p.line(60 + 195 * n, 430, 90 + 195 * n, 430, colour, 'stroke-width="2.5"')
        p.text(97 + 195 * n, 435, f"{working} work, {16 - working} stand" + ("s by" if working == 15 else " by"))
    p.line(645, 430, 675, 430, "#000", 'stroke-dasharray="5 4"')
    p.text(682, 435, "the rule")
    return p.done()


def keys(found):
    """The keys of each of 16 movers: a row of panels for spread numbers, one for consecutive ones."""
    p = Picture(760, 545, "How many of 20,000 keys each of 16 movers gets")
    rows = ((1, 35, 4000, 1000, "spread numbers"), (0, 265, 20000, 5000, "numbers 1 to 16"))
    for spread, top, most, step, words in rows:
        for n, name in enumerate(("HRW", "ring", "4,096 rows")):
            panel = Panel(p, 75 + 235 * n, top + 30, 205, 170, (0, 16), most)
            panel.axes([], range(0, most + 1, step), marked=n == 0)
            p.text(panel.left + 100, top + 20, f"{name}, {words}", "middle")
            for i, count in enumerate(found["keys", spread, 16, *WAYS[name]][0]):
                p.bar(panel.x(i) + 1, panel.y(count), 205 / 16 - 2, panel.y(0) - panel.y(count), COLOURS[name])
            p.line(panel.left, panel.y(1250), panel.left + 205, panel.y(1250), "#000", 'stroke-dasharray="5 4"')
    p.line(75, 503, 105, 503, "#000", 'stroke-dasharray="5 4"')
    p.text(112, 507, "the even share, 1,250")
    p.text(75, 529, "One draw. A bar for each mover, in the order of their numbers. The two rows have different scales.")
    return p.done()


def drawn(found):
    """The pictures' names and texts."""
    return [("share.svg", shares(found)), ("rotation.svg", rotations(found)), ("keys.svg", keys(found))]
