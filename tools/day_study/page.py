"""The page of a study: one HTML file with plain SVG pictures, which needs no network and has no script."""
from collections import Counter
from pathlib import Path

from day_replay.page import digest
from day_study.plots import escaped, falling_lines, lying_bars, short, standing_bars
from day_study.sums import MEASURES, SHARES, quantile, shape

SHOWN = 20
STYLE = Path(__file__).resolve().parent / "page.css"
HEAD = """<!doctype html>
<html lang="en">
<head>
<meta charset="utf-8">
<meta name="viewport" content="width=device-width, initial-scale=1">
<meta http-equiv="Content-Security-Policy" content="default-src 'none'; style-src {digest}">
<title>{title}</title>
<style>{style}</style>
</head>
<body>
"""


def percent(share):
    """A share in hundredths."""
    return f"{100 * share:.1f} %"


def table(names, rows):
    """A table; the cells are texts of a page already."""
    head = "".join(f"<th>{escaped(name)}</th>" for name in names)
    body = "".join("<tr>" + "".join(f"<td>{cell}</td>" for cell in row) + "</tr>\n" for row in rows)
    return f"<table><thead><tr>{head}</tr></thead>\n<tbody>{body}</tbody></table>"


def section(title, said, *parts, wide=False):
    """A part of the page."""
    css = ' class="wide"' if wide else ""
    return f"<section{css}><h2>{escaped(title)}</h2>\n<p class=\"hint\">{escaped(said)}</p>\n" + "\n".join(parts) + "</section>\n"


def facts(sums, settings):
    """The numbers at the head of the page."""
    totals, flights = sums.totals, max(1, sums.totals["flights"])
    served = max(1, totals["served"])
    told = [
        (short(sums.days), "days"),
        (short(len(sums.flights)), "flights a day"),
        (percent(totals["served"] / flights), "of all flights have a route"),
        (f"{totals['taxi'] / served:.0f} s", "mean taxi time"),
        (f"{totals['delay'] / served:.1f} s", "mean delay"),
        (percent(totals["kept"] / flights), f"keep their stand time within {settings['limit']} s"),
        (percent(totals["steady"] / flights), "do so, their own offset taken off"),
    ]
    items = "".join(f"<li><b>{escaped(number)}</b>{escaped(text)}</li>" for number, text in told)
    failed = f'<p class="failed">{sums.failed} days failed; they are left out here.</p>' if sums.failed else ""
    return f'<ul class="facts">{items}</ul>\n{failed}'


def drawn(settings):
    """What was drawn, in a sentence or two."""
    delays = ", ".join(settings["delays"]) or "none"
    checked = "Each day was confirmed by the checker." if settings["check"] else "The days were not given to the checker."
    own = f" Routes are those of {settings['own']}." if settings["own"] else ""
    closed = f" {len(settings['closures'])} closures." if settings["closures"] else ""
    return f"Seed {settings['seed']}. Offsets: {delays}. Order of requests: {settings['order']}.{closed}{own} {checked}"


def delay_section(groups):
    """How many flights have more than some delay."""
    kinds = [(kind, groups[key], kind) for kind in ("arrival", "departure") if (key := ("kind", kind, "delay")) in groups]
    everything = groups.get(("all", "all", "delay"), Counter())
    most = quantile(everything, sum(everything.values()), 99.5) if everything else 0
    said = "The share of flights with a delay above so many seconds. A delay of 0 is what the flight would have with nobody else about."
    return section("Delays of flights", said, falling_lines(kinds, max(1, most), "Share of flights above each delay", " s"))


def day_section(sums):
    """The delays of days."""
    said = "How many days have so many seconds of delay, summed over their flights."
    return section("Delays of days", said, standing_bars(sums.daily["delay"], "How often each delay of a day", "wait", " s"))


def segment_section(sums):
    """The most waited-for segments."""
    rows = []
    for name, record in sums.ranked_segments()[:SHOWN]:
        if record.totals["waited_for"]:
            counts = record.all_days("waited_for", sums.days)
            rows.append((name, record.totals["waited_for"] / max(1, sums.days), quantile(counts, sums.days, 95), "wait"))
    said = "Seconds a day that flights wait for the segment elsewhere, or before their first step. The mark stands where 95 % of the days lie below."
    return section("The most waited-for segments", said, lying_bars(rows, "Seconds a day waited for a segment", " s a day"))


def steady_section(sums, limit):
    """The flights whose stand time others move most often."""
    ranked = sorted(sums.flights.items(), key=lambda it: (it[1].share("steady"), it[0]))[:SHOWN]
    rows = [(name, 100 * record.share("steady"), 100 * record.share("kept"), record.kind) for (name, _), record in ranked]
    said = (
        f"The share of days, in hundredths, on which others move a flight's stand time by at most {limit} s: the lowest {len(rows)}. "
        "The mark shows how often it keeps its stand time with its own offset."
    )
    return section("Where the plan gives way", said, lying_bars(rows, "Share of days with a steady stand time", " %", 100))


def spread_section(sums, limit):
    """How many flights are steady on how many days."""
    counts = Counter(int(100 * record.share("steady")) for record in sums.flights.values())
    said = f"How many flights have a stand time that others move by at most {limit} s on so many hundredths of the days."
    return section("How robust the plan is", said, standing_bars(counts, "Flights by their share of steady days", "departure", " %"))


def no_route_section(sums):
    """The flights that got no route, with how often."""
    lost = [(name, record) for (name, _), record in sums.flights.items() if record.counts["served"] < record.counts["days"]]
    lost.sort(key=lambda it: (it[1].counts["served"], it[0]))
    rows = [(name, 100 * (1 - record.share("served")), None, "no-route") for name, record in lost[:SHOWN]]
    if not rows:
        return section("Flights without a route", "Each flight has a route on each day.")
    said = f"{len(lost)} flights are without a route on some days. The share of days, in hundredths, of those without most often."
    return section("Flights without a route", said, lying_bars(rows, "Share of days without a route", " %"))


def worst_section(sums, links):
    """The worst days, each with a link to its page."""
    rows = []
    for lost, delay, day in sums.worst:
        link = f'<a href="{escaped(links[day])}">day {day}</a>' if day in links else f"day {day}"
        rows.append([link, lost, short(delay)])
    said = "First those with most flights without a route, then those with most delay."
    return section("The worst days", said, table(["day", "without a route", "delay, s"], rows))


def quantile_section(groups, group, title):
    """The quantiles of each name of a group."""
    names = list(dict.fromkeys(name for kind, name, _ in groups if kind == group))
    rows = []
    for name in names:
        for measure in MEASURES:
            count, _, mean, least, *rest = shape(groups[group, name, measure])
            rows.append([escaped(name), measure, short(count), mean, least, *rest])
    heads = [group, "seconds of", "flights", "mean", "least", *(f"{share} %" for share in SHARES), "most"]
    return section(title, "Of all flights that have a route, over all days.", table(heads, rows), wide=True)


def page(sums, settings, links):
    """The page of a study. LINKS are the pages of the worst days, by their numbers."""
    style, limit, groups = STYLE.read_text(), settings["limit"], sums.groups()
    title = f"{settings['days']} days of {settings['title']}"
    parts = [
        delay_section(groups), day_section(sums), segment_section(sums), steady_section(sums, limit),
        spread_section(sums, limit), worst_section(sums, links), no_route_section(sums),
    ]
    tables = [quantile_section(groups, group, title) for group, title in (
        ("kind", "By kind"), ("class", "By class"), ("stand", "By stand")
    )]
    said = "This page stands outside the proofs. It sums up what the router answered."
    return (
        HEAD.format(digest=digest(style), title=escaped(title), style=style)
        + f"<h1>{escaped(title)}</h1>\n<p>{escaped(drawn(settings))}</p>\n" + facts(sums, settings)
        + '<div class="parts">\n' + "".join(parts + tables) + f'</div>\n<p class="hint">{said}</p>\n</body>\n</html>\n'
    )
