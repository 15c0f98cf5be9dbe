"""The page of a day: the template with its style, its scripts and the data of the day, in one text."""
import base64
import hashlib
import html
import json
from pathlib import Path

PARTS = Path(__file__).resolve().parent.parent / "day_page_parts"
SCRIPTS = (
    "model.js", "clock.js", "elements.js", "pen.js", "view.js", "marks.js", "stands.js", "rows.js", "drag.js", "drawing.js",
    "timeline.js", "map.js", "flights_list.js", "commands_list.js", "details.js", "player.js", "keys.js", "address.js",
    "print.js", "head.js", "legend.js", "tools.js", "main.js",
)


def as_script_text(value):
    """A value as JSON that can stand in an element of a page: nothing in it ends the element or begins another."""
    text = json.dumps(value, separators=(",", ":"))
    for character in "<>&":
        text = text.replace(character, f"\\u{ord(character):04x}")
    return text


def digest(text):
    """What a page's policy says of a script or a style that is allowed."""
    return "'sha256-" + base64.b64encode(hashlib.sha256(text.encode()).digest()).decode() + "'"


def page(data):
    """The page: the template with its style, its scripts and the data of the day."""
    style = (PARTS / "page.css").read_text()
    script = '"use strict";\n' + "\n".join((PARTS / name).read_text() for name in SCRIPTS)
    policy = f"default-src 'none'; style-src {digest(style)}; script-src {digest(script)}; img-src data: blob:"
    text = (PARTS / "page.html").read_text()
    pieces = {
        "POLICY": policy,
        "TITLE": html.escape(data["title"]),
        "STYLE": style,
        "SCRIPT": script,
        "DATA": as_script_text(data),
    }
    before, *rest = text.split("{{")
    for part in rest:
        name, after = part.split("}}", 1)
        before += pieces[name] + after
    return before
