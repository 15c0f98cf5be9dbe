"""A reply as the object that `taxi-tools json` writes of it."""

from __future__ import annotations

from typing import TYPE_CHECKING, Any, Iterable, Sequence

if TYPE_CHECKING:
    from .reply import Reply

Object = dict[str, Any]

# The key of the number behind the reason of a refusal, for those that have one.
NUMBER_OF = {"already-done": "end", "already-moving": "start", "not-moving": "start", "not-late": "leave", "past-end": "horizon"}


def object_of(reply: Reply) -> Object:
    """What the reply says, with the keys of `taxi-tools json`, but for those that tell what was asked."""
    return {"reply": reply.kind, **_further(reply)}


def _further(reply: Reply) -> Object:
    kind = reply.kind
    if kind in ("cancelled", "dropped"):
        return {"flight": reply.flight}
    if kind == "filed":
        return {"flight": reply.flight, "start": reply.start, "end": reply.end}
    if kind == "refused":
        return _refusal(reply.words[1:])
    if kind in ("route", "no-route"):
        return _route(reply)
    if kind in ("batch", "late"):
        first: Object = {"total": reply.total} if kind == "batch" else {"flight": reply.flight}
        return {**first, "entries": [_sorted({"flight": flight, **object_of(entry)}) for flight, entry in reply.entries]}
    return _report(reply)


def _refusal(words: Sequence[str]) -> Object:
    found: Object = {"why": words[0]}
    if words[0] == "step":
        found.update(step=int(words[1]), cause=words[2])
        if words[2] == "taken":
            found.update(at=int(words[3]), by=words[4])
    elif words[0] in NUMBER_OF:
        found[NUMBER_OF[words[0]]] = int(words[1])
    return found


def _route(reply: Reply) -> Object:
    found: Object = {"labels": _rows(("arc", "from", "until", "value"), reply.labels)}
    if reply.kind == "route":
        found.update(flight=reply.flight, second=reply.second, steps=_rows(("arc", "enter", "leave"), reply.steps))
    return found


def _report(reply: Reply) -> Object:
    if reply.kind == "windows":
        return {"segment": reply.segment, "windows": _rows(("from", "until"), reply.windows)}
    if reply.kind == "occupancy":
        return {"segment": reply.segment, "held": _rows(("from", "until", "flight", "segment"), reply.held)}
    return {"flights": _rows(("flight", "kind", "class", "start", "end"), reply.flights)}


def _rows(keys: Sequence[str], rows: Iterable[Sequence[Any]]) -> list[Object]:
    return [_sorted(dict(zip(keys, row))) for row in rows]


def _sorted(found: Object) -> Object:
    return dict(sorted(found.items()))
