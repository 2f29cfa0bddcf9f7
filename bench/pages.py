"""What bench/run writes: tables, and the parts of a page between two lines."""
import sys

BEGIN = "<!-- bench/run writes from here -->"
WAYS = "<!-- bench/run ways writes from here -->"
CHECKS = "<!-- bench/run checks writes from here -->"
OTHERS = "<!-- bench/run others writes from here -->"
GROWTH = "<!-- bench/run growth writes from here -->"
LATENCY = "<!-- bench/run latency writes from here -->"
END = "<!-- to here -->"


def ratio(one, other):
    return one / max(other, 1e-6)


def ratios(row):
    """Returns the ratios of wall time and of processor time, ours to LevelDB's."""
    _, ours, theirs = row
    return [ratio(ours[it], theirs[it]) for it in (0, 1)]


def lined(*rows):
    """Returns a table of rows of cells. The first row is its head, and all columns but the first
    are at the right."""
    head, *rest = rows
    return "\n".join(f"| {' | '.join(it)} |" for it in [head, *rest]).replace("\n", f"\n|---|{'---:|' * (len(head) - 1)}\n", 1)


def table_of(rows):
    lines = [("Workload", "ours, s", "LevelDB, s", "ratio", "ours, processor s", "LevelDB, processor s", "ratio", "ours, MB", "LevelDB, MB")]
    for row in rows:
        name, ours, theirs = row
        wall, processor = ratios(row)
        times = (f"{ours[0]:.3f}", f"{theirs[0]:.3f}", f"{wall:.2f}", f"{ours[1]:.3f}", f"{theirs[1]:.3f}", f"**{processor:.2f}**")
        lines.append((f"`{name}`", *times, f"{ours[2]:.1f}", f"{theirs[2]:.1f}"))
    return lined(*lines)


def ways_of(rows):
    """Returns processor seconds of reads, ours and each way of LevelDB's with the ratio of ours to
    it, and the memory of each."""
    head, lines = ["Workload", "ours, processor s"], []
    ways = [it for it in rows[0][1] if it != "ours"]
    for way in ways:
        head += [f"{way}, s", "ratio"]
    for workload, taken in rows:
        seconds = {side: it[1] for side, it in taken.items()}
        cells = [f"`{workload}`", f"{seconds['ours']:.3f}"]
        for way in ways:
            cells += [f"{seconds[way]:.3f}", f"**{ratio(seconds['ours'], seconds[way]):.2f}**"]
        lines.append([*cells, " / ".join(f"{it[2]:.0f}" for it in taken.values())])
    return lined([*head, "MB, in this order"], *lines)


def taken_of(rows):
    """Returns a table of what each of some programs took."""
    lines = [(name, f"{wall:.3f}", f"{processor:.3f}", f"{memory:.1f}") for name, (wall, processor, memory) in rows]
    return lined(("What", "s", "processor s", "MB"), *lines)


def digits(seconds):
    return f"{seconds:.2f}" if seconds >= 1 else f"{seconds:.3f}"


def others_of(rows, sizes):
    """Returns wall time and processor time of each side in one cell. Below stand the most memory
    that each took, and the size of its files."""
    names = [*rows[0][1]]
    lines = [[f"`{workload}`", *(f"{digits(it[0])} / {digits(it[1])}" for it in taken.values())] for workload, taken in rows]
    most = [f"{max(taken[name][2] for _, taken in rows):.0f}" for name in names]
    files = [f"{sizes[name]:.1f}" for name in names]
    return lined(["Workload", *names], *lines, ["most memory, MB", *most], ["files after `settle`, MB", *files])


def growth_of(sizes, rows):
    """Returns the processor microseconds of an entry at each size, the ratio of ours to each other
    side, and of each row the last figure divided by the first."""
    lines = [f"| Workload | | {' | '.join(f'N = {it:,}' for it in sizes)} | growth |", f"|---|---|{'---:|' * (len(sizes) + 1)}"]
    for name, sides in rows:
        told = {side: [it / size * 1e6 for it, size in zip(seconds, sizes)] for side, seconds in sides.items()}
        ours = told["ours"]
        for side, each in told.items():
            lines.append(grown_row(name, side, each, "{:.2f}"))
            if side != "ours":
                lines.append(grown_row(name, f"ours / {side}", [ratio(*pair) for pair in zip(ours, each)], "**{:.2f}**"))
    return "\n".join(lines)


def grown_row(name, side, each, form):
    return f"| `{name}` | {side} | {' | '.join(form.format(it) for it in [*each, ratio(each[-1], each[0])])} |"


def latency_of(rows):
    """Returns how long writes take in microseconds, by the work after each, and the seconds of
    all."""
    lines = [(name, *(f"{it / 1000:,.1f}" for it in times), f"{seconds:.1f}") for name, times, seconds in rows]
    return lined(("Work after each write", "half", "99 in 100", "999 in 1,000", "the slowest", "all, s"), *lines)


def put_between(path, begin, text):
    """Replaces what stands between two lines of a page by a text."""
    with open(path, encoding="utf-8") as file:
        page = file.read()
    front, found, rest = page.partition(begin)
    _, ended, behind = rest.partition(END)
    if not found or not ended:
        sys.exit(f"bench: {path} has not its two lines, {begin} and {END}")
    with open(path, "w", encoding="utf-8") as file:
        file.write(f"{front}{begin}\n{text}\n{END}{behind}")
