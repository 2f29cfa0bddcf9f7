"""The charts that bench/run draws, as SVG."""
import math

from pages import ratios

# measures of the charts, in their own units
NAMES, WIDTH, ROW, TOP = 200, 600, 34, 64
DARK, LIGHT = "#2f6f9f", "#a9c9de"
STYLE = "<style>text { font: 13px sans-serif; fill: #222 } .small { font-size: 10.5px; fill: #444 } .head { font-weight: bold }</style>"

# the largest ratio that is drawn, and the powers of ten of a microsecond that latencies lie between
MOST = 3.0
DECADES = (0, 6)

# marks of a row of writes: so many of them are as fast, or faster
MARKS = (("half of the writes", DARK, 5.0), ("99 in 100", "#6c9fc4", 4.5), ("999 in 1,000", LIGHT, 4.5), ("the slowest", "#b8562e", 5.0))


def framed(width, height, title, head, inside):
    return "\n".join(
        [
            f'<svg xmlns="http://www.w3.org/2000/svg" width="{width}" height="{height}" viewBox="0 0 {width} {height}" role="img">',
            f"<title>{title}</title>",
            STYLE,
            f'<rect width="{width}" height="{height}" fill="#fff"/>',
            f'<text x="12" y="22" class="head">{head}</text>',
            *inside,
            "</svg>\n",
        ]
    )


def line_at(x, bottom, text, dashes=""):
    return [
        f'<line x1="{x:.1f}" y1="{TOP - 6}" x2="{x:.1f}" y2="{bottom}" stroke="#444" stroke-width="1"{dashes}/>',
        f'<text x="{x:.1f}" y="{TOP - 10}" class="small" text-anchor="middle">{text}</text>',
    ]


# ---- time beside LevelDB's


def place(ratio):
    return NAMES + min(ratio, MOST) / MOST * WIDTH


def bar(top, height, ratio, colour, name):
    width = place(ratio) - NAMES
    more = " →" if ratio > MOST else ""
    return [
        f'<rect x="{NAMES}" y="{top}" width="{width:.1f}" height="{height}" rx="2" fill="{colour}"><title>{name}: {ratio:.2f}</title></rect>',
        f'<text x="{NAMES + width + 5:.1f}" y="{top + height - 1}" class="small">{ratio:.2f}{more}</text>',
    ]


def key(x, colour, text):
    return [f'<rect x="{x}" y="12" width="12" height="12" rx="2" fill="{colour}"/>', f'<text x="{x + 17}" y="22" class="small">{text}</text>']


def speed_chart(rows, number):
    """A horizontal bar chart of the ratios."""
    bottom, width = TOP + ROW * len(rows), NAMES + WIDTH + 60
    lines = key(width - 250, DARK, "processor time") + key(width - 140, LIGHT, "wall time")
    for i, row in enumerate(rows):
        wall, processor = ratios(row)
        top = TOP + ROW * i
        lines.append(f'<text x="{NAMES - 8}" y="{top + 17}" text-anchor="end">{row[0]}</text>')
        lines += bar(top + 3, 12, processor, DARK, f"{row[0]}, processor time")
        lines += bar(top + 17, 9, wall, LIGHT, f"{row[0]}, wall time")
    lines += line_at(place(0.8), bottom, "0.8", ' stroke-dasharray="4 3"') + line_at(place(1.0), bottom, "1.0")
    head = f"Time beside LevelDB's (1.0), N = {number:,}; less is faster"
    return framed(width, bottom + 16, f"Time beside LevelDB's, N = {number:,}", head, lines)


# ---- how long writes take


def place_of(nanoseconds):
    least, most = DECADES
    power = math.log10(max(nanoseconds, 1) / 1000)
    return NAMES + (min(max(power, least), most) - least) / (most - least) * WIDTH


def told(nanoseconds):
    """Returns a time in the unit that reads best."""
    for unit, size in (("s", 1e9), ("ms", 1e6)):
        if nanoseconds >= size:
            return f"{nanoseconds / size:.3g} {unit}"
    return f"{nanoseconds / 1000:.3g} µs"


def marked(top, name, times):
    """Draws one way of writing: a line from its median to its slowest write, with a mark for each
    part of the writes."""
    middle, ends = top + ROW / 2, [place_of(times[it]) for it in (0, -1)]
    lines = [
        f'<text x="{NAMES - 16}" y="{middle + 4}" text-anchor="end">{name}</text>',
        f'<line x1="{ends[0]:.1f}" y1="{middle}" x2="{ends[1]:.1f}" y2="{middle}" stroke="#bbb" stroke-width="2"/>',
    ]
    for (part, colour, size), time in zip(MARKS, times):
        mark = f'<circle cx="{place_of(time):.1f}" cy="{middle}" r="{size}" fill="{colour}">'
        lines.append(f"{mark}<title>{name}, {part}: {told(time)}</title></circle>")
    return [*lines, f'<text x="{ends[1] + 9:.1f}" y="{middle + 4}" class="small">{told(times[-1])}</text>']


def latency_chart(rows, number):
    """Draws how long writes take, by the work after each, over powers of ten."""
    bottom, width = TOP + ROW * len(rows), NAMES + WIDTH + 60
    lines = []
    for power in range(DECADES[0], DECADES[1] + 1):
        lines += line_at(place_of(1000 * 10**power), bottom, told(1000 * 10**power), ' stroke-dasharray="1 4"')
    for i, (name, times, _) in enumerate(rows):
        lines += marked(TOP + ROW * i, name, times)
    for i, (part, colour, _) in enumerate(MARKS):
        lines += key(NAMES + 145 * i, colour, part)
    head = f"How long a write takes, by the work behind it, N = {number:,}"
    # (the key has a line of its own, below the rows)
    below = [it.replace('y="12"', f'y="{bottom + 12}"').replace('y="22"', f'y="{bottom + 22}"') for it in lines[-2 * len(MARKS) :]]
    return framed(width, bottom + 40, head, head, lines[: -2 * len(MARKS)] + below)
