"""The pictures of distance.py: nine small curves over the years, as SVG.

Each panel has its own height, because Pluto's distances are a hundred times
Mercury's.  A curve shows the greatest distance, or angle, of each year.
"""

from collections import namedtuple

COLUMNS = 3
PANEL_WIDTH, PANEL_HEIGHT = 300, 150
LEFT, TOP, RIGHT, GAP = 60, 70, 20, 62      # margins, and the room between panels
FIRST_YEAR, LAST_YEAR = 1800, 2050
YEAR = 525_960                              # minutes in a Julian year

# The rows of a curve are (minute, distance, angle).  A subject says which of them
# is drawn, what stands above it all in large and in small letters, what stands
# above each panel, and the labels of its axes.
Subject = namedtuple("Subject", "drawn heading note caption labels")
BESIDE_DOUBLE = Subject(
    drawn=1,
    heading="Exact places beside double-precision places, "
            "greatest distance of each year in 10⁻⁷ au",
    note="", caption="{name}: at most {distance:.1f}", labels=())
BETWEEN_TABLES = Subject(
    drawn=2,
    heading="Places by Table 1 beside places by Table 2: "
            "greatest angle of each year, seen from the Sun",
    note="After each name: the greatest angle and the greatest distance of all years",
    caption="{name}: {angle:.1f}″, {distance:,.0f}·10⁻⁷ au",
    labels=("year", "seconds of arc"))


def yearly(curve, drawn):
    """The greatest value of each year, from (minute, distance, angle) rows."""
    best = {}
    for row in curve:
        year = min(max(2000 + row[0] // YEAR, FIRST_YEAR), LAST_YEAR - 1)
        best[year] = max(best.get(year, 0.0), row[drawn])
    return sorted(best.items())


def rounded_up(value):
    """The next 1, 2, 2.5 or 5 times a power of ten: the top of a panel."""
    power = 1.0
    while power * 10 < value:
        power *= 10
    return next(step * power for step in (1, 2, 2.5, 5, 10) if step * power >= value)


def text(x, y, words, anchor="middle", size=12):
    return (f'<text x="{x:.1f}" y="{y:.1f}" font-size="{size}" '
            f'text-anchor="{anchor}">{words}</text>')


def axes(top):
    """Lines and numbers of one panel, in the panel's own coordinates."""
    parts = [f'<rect width="{PANEL_WIDTH}" height="{PANEL_HEIGHT}" '
             'fill="none" stroke="#888"/>']
    for year in range(FIRST_YEAR, LAST_YEAR + 1, 50):
        x = (year - FIRST_YEAR) / (LAST_YEAR - FIRST_YEAR) * PANEL_WIDTH
        parts.append(f'<path d="M{x:.1f} {PANEL_HEIGHT}v5" stroke="#888"/>')
        parts.append(text(x, PANEL_HEIGHT + 19, year, size=11))
    for share in (0, 0.5, 1):
        y = PANEL_HEIGHT * (1 - share)
        parts.append(f'<path d="M0 {y:.1f}h{PANEL_WIDTH}" stroke="#ddd"/>')
        parts.append(text(-6, y + 4, f"{top * share:g}", "end", 11))
    return parts


def axis_labels(labels):
    """The words below and left of one panel, if the subject has any."""
    if not labels:
        return []
    below, left = labels
    return [text(PANEL_WIDTH / 2, PANEL_HEIGHT + 33, below, size=11),
            f'<g transform="translate(-42,{PANEL_HEIGHT / 2}) rotate(-90)">'
            f'{text(0, 0, left, size=11)}</g>']


def panel(name, curve, subject, column, row):
    """One body's curve under its name."""
    years = yearly(curve, subject.drawn)
    top = rounded_up(max(value for _, value in years))
    points = " ".join(
        f"{(year + 0.5 - FIRST_YEAR) / (LAST_YEAR - FIRST_YEAR) * PANEL_WIDTH:.1f},"
        f"{PANEL_HEIGHT * (1 - value / top):.1f}" for year, value in years)
    x = LEFT + column * (PANEL_WIDTH + GAP)
    y = TOP + row * (PANEL_HEIGHT + GAP)
    caption = subject.caption.format(
        name=name.replace("EM_Bary", "Earth-Moon barycentre"),
        distance=max(each[1] for each in curve), angle=max(each[2] for each in curve))
    return [f'<g transform="translate({x},{y})">', *axes(top),
            *axis_labels(subject.labels),
            f'<polyline points="{points}" fill="none" stroke="#1f5fa8" '
            'stroke-width="1.2"/>',
            text(0, -7, caption, "start", 13), "</g>"]


def svg(curves, subject):
    """The whole picture from (name, rows) pairs."""
    rows = -(-len(curves) // COLUMNS)
    width = LEFT + COLUMNS * (PANEL_WIDTH + GAP) - GAP + RIGHT
    height = TOP + rows * (PANEL_HEIGHT + GAP)
    parts = [f'<svg xmlns="http://www.w3.org/2000/svg" width="{width}" '
             f'height="{height}" font-family="sans-serif" fill="#222">',
             f'<rect width="{width}" height="{height}" fill="white"/>',
             text(LEFT, 26, subject.heading, "start", 16)]
    if subject.note:
        parts.append(text(LEFT, 44, subject.note, "start", 12))
    for number, (name, curve) in enumerate(curves):
        parts += panel(name, curve, subject, number % COLUMNS, number // COLUMNS)
    return "\n".join(parts + ["</svg>"]) + "\n"
