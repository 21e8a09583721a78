"""The page put together: the template with its style, d3, the events as data, and the scripts that show them."""

from __future__ import annotations

from html import escape
import json
from pathlib import Path
import re
from typing import Any

from page_file.events import Event
from page_file.lives import lives_of
from page_file.marks import marks_of

HERE = Path(__file__).resolve().parent
# in the order in which they stand on each other
SCRIPTS = ("history.js", "axis.js", "lanes.js", "paint.js", "chart.js", "moment.js", "life.js", "main.js")


def data_of(title: str, events: list[Event]) -> dict[str, Any]:
    """What the scripts read: columns of the entries, and the lives of rows."""
    lives = lives_of(events)
    rows = {f"{kind}s": [[life.id, life.points, life.gone] for life in lives[kind]] for kind in lives}
    rows["tasks"] = [
        [life.id, life.points, life.gone, life.first["service"], life.first["place"]] for life in lives["task"]
    ]
    return {
        "title": title,
        "clock": [event.clock for event in events],
        "caller": [event.caller for event in events],
        "text": [event.text for event in events],
        "reply": {event.entry: event.reply for event in events if event.reply},
        "marks": marks_of(events),
        **rows,
    }


def json_in_html(value: Any) -> str:
    """JSON in which no character can end the element that it stands in."""
    text = json.dumps(value, separators=(",", ":"), ensure_ascii=False)
    return text.replace("&", "\\u0026").replace("<", "\\u003c").replace(">", "\\u003e")


def library_in_html(library: str) -> str:
    # nothing but the text of strings could say this, and there the backslash changes nothing
    return library.replace("</script", "<\\/script")


def page_of(title: str, events: list[Event], library: str) -> str:
    parts = {
        "title": escape(title),
        "style": (HERE / "page.css").read_text(),
        "licence": (HERE / "d3_licence.txt").read_text(),
        "library": library_in_html(library),
        "events": json_in_html(data_of(title, events)),
        "scripts": "\n".join((HERE / name).read_text() for name in SCRIPTS),
    }
    template = (HERE / "page.html").read_text()
    return re.sub(r"\{\{(\w+)\}\}", lambda found: parts[found[1]], template)
