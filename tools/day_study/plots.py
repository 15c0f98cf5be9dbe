"""Plain SVG pictures: bars that lie, bars that stand, and lines. They have no script, and take their colours from the page's style."""
import html
import math

WIDTH = 640
LEFT = 130
ROW = 20


def escaped(text):
    """A text for a page."""
    return html.escape(str(text), quote=True)


def short(number):
    """A number in few characters."""
    if isinstance(number, float) and not number.is_integer():
        return f"{number:.1f}" if abs(number) >= 1 else f"{number:.2g}"
    return f"{int(number):,}"


def label(x, y, text, anchor="start", css="tick"):
    """A text in a picture."""
    return f'<text class="{css}" x="{x:.1f}" y="{y:.1f}" text-anchor="{anchor}">{escaped(text)}</text>'


def line(x, y, to_x, to_y, css="grid"):
    """A straight line."""
    return f'<line class="{css}" x1="{x:.1f}" y1="{y:.1f}" x2="{to_x:.1f}" y2="{to_y:.1f}"/>'


def box(x, y, width, height, css, told=""):
    """A bar; what it tells comes up under the pointer."""
    title = f"<title>{escaped(told)}</title>" if told else ""
    return f'<rect class="{css}" x="{x:.1f}" y="{y:.1f}" width="{max(width, 0):.1f}" height="{max(height, 0):.1f}">{title}</rect>'


def picture(height, parts, told):
    """A picture of all these parts; TOLD is for those who don't see it."""
    inner = "\n".join(parts)
    return f'<svg viewBox="0 0 {WIDTH} {height}" role="img" aria-label="{escaped(told)}">\n{inner}\n</svg>'


def ticks(most, count=5):
    """Round numbers from 0 to a little above the most."""
    if most <= 0:
        return [0, 1]
    raw = most / count
    size = 10 ** math.floor(math.log10(raw))
    step = next(size * factor for factor in (1, 2, 5, 10) if size * factor >= raw)
    if step >= 1:
        step = int(step)
    return [step * k for k in range(math.ceil(most / step) + 1)]


def lying_bars(rows, told, unit="", scale=None):
    """A bar for each row (name, value, value of a mark or None, class). SCALE is the largest value, if it isn't that of the rows."""
    marks = ticks(scale or max([max(value, mark or 0) for _, value, mark, _ in rows], default=0))
    wide, height = WIDTH - LEFT - 60, ROW * len(rows) + 26
    parts = []
    for tick in marks:
        x = LEFT + wide * tick / marks[-1]
        parts += [line(x, 0, x, height - 22), label(x, height - 6, short(tick), "middle")]
    for at, (name, value, mark, css) in enumerate(rows):
        y = ROW * at + 3
        length = wide * value / marks[-1]
        parts.append(label(LEFT - 6, y + 11, name, "end", "name"))
        parts.append(box(LEFT, y, length, ROW - 6, css, f"{name}: {short(value)}{unit}"))
        if mark is not None:
            x = LEFT + wide * mark / marks[-1]
            parts.append(line(x, y - 1, x, y + ROW - 5, "mark"))
        parts.append(label(LEFT + max(length, wide * (mark or 0) / marks[-1]) + 5, y + 11, short(value)))
    return picture(height, parts, told)


def bins_of(counts, most=40):
    """The values of a distribution in bins of one round width: (from, how often), and the width."""
    if not counts:
        return [], 1
    low, high = min(counts), max(counts)
    width = max(1, int(ticks(max(1, high - low), most)[1]))
    first = low // width
    bins = [0] * (high // width - first + 1)
    for value, often in counts.items():
        bins[value // width - first] += often
    return [((first + k) * width, often) for k, often in enumerate(bins)], width


def standing_bars(counts, told, css, unit):
    """A histogram of a distribution."""
    bins, width = bins_of(counts)
    height, base = 190, 160
    up = ticks(max((often for _, often in bins), default=0), 4)
    parts = []
    for tick in up:
        y = base - 145 * tick / up[-1]
        parts += [line(50, y, WIDTH - 10, y), label(44, y + 4, short(tick), "end")]
    wide = (WIDTH - 60) / max(1, len(bins))
    every = max(1, math.ceil(len(bins) / 8))
    for at, (start, often) in enumerate(bins):
        x, tall = 50 + wide * at, 145 * often / up[-1]
        span = short(start) if width == 1 else f"{short(start)} to {short(start + width - 1)}"
        parts.append(box(x + 0.5, base - tall, wide - 1, tall, css, f"{span}{unit}: {short(often)}"))
        if at % every == 0:
            parts.append(label(x, base + 16, short(start)))
    return picture(height, parts, told)


def points_of(counts, most):
    """The share of all values that pass each value up to the most, as steps."""
    total = sum(counts.values())
    left, points = total, [(0, (total - counts.get(0, 0)) / max(1, total))]
    for value in sorted(counts):
        if value > most:
            break
        left -= counts[value]
        points.append((value, left / max(1, total)))
    return points


def falling_lines(groups, most, told, unit):
    """For each group (name, counts, class) the share of its values above each value."""
    height, base, right = 220, 180, ticks(most)
    shares = [point for _, counts, _ in groups for point in points_of(counts, right[-1])]
    up = ticks(100 * max((share for _, share in shares), default=0), 4)
    parts = []
    for tick in up:
        y = base - 165 * tick / up[-1]
        parts += [line(50, y, WIDTH - 10, y), label(44, y + 4, f"{short(tick)} %", "end")]
    for tick in right:
        parts.append(label(50 + (WIDTH - 70) * tick / right[-1], base + 16, short(tick) + (unit if tick == right[-1] else ""), "middle"))
    for at, (name, counts, css) in enumerate(groups):
        path, last = [], None
        for value, share in points_of(counts, right[-1]):
            x, y = 50 + (WIDTH - 70) * value / right[-1], base - 165 * 100 * share / up[-1]
            path.append(f"{x:.1f},{last:.1f}" if last is not None else f"{x:.1f},{y:.1f}")
            path.append(f"{x:.1f},{y:.1f}")
            last = y
        parts.append(f'<polyline class="{css}" points="{" ".join(path)}"/>')
        parts.append(label(WIDTH - 14, 26 + 16 * at, name, "end", f"name {css}"))
    return picture(height, parts, told)
