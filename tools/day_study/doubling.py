"""An airport with a second segment beside one of its own, as if the taxiway were built twice."""
import csv
import io
import itertools

from day_study.problem import Refused

LONGEST_NAME = 16


def name_beside(segment, taken):
    """A name for the second segment that no segment has."""
    for number in itertools.count(2):
        tail = f"_{number}"
        name = segment[:LONGEST_NAME - len(tail)] + tail
        if name not in taken:
            return name


def with_other(words, segment, other):
    """Two arc words with the second segment in place of the first; none if the first is in neither."""
    changed = [other + word[-1] if word[:-1] == segment else word for word in words]
    return [changed] if changed != words else []


def turns_back(segment, other, one_way):
    """Records that forbid to turn from one of the two onto the other, back to where one came from."""
    if one_way:
        return []
    pairs = ((segment, other), (other, segment))
    return [["forbid", first + sign, second + back] for first, second in pairs for sign, back in ("+-", "-+")]


def conflicts(members, segment, other, touching):
    """The conflict sets in place of one that names the first segment: one without it, and one for each of the two with those that don't
    meet them."""
    others = [name for name in members if name != segment]
    apart = [name for name in others if name not in touching]
    sets = [others] if len(others) > 1 else []
    return sets + [[name, *apart] for name in (segment, other) if apart]


def records_for(record, segment, other, touching):
    """The records in place of one. TOUCHING are the segments that meet the first."""
    word, fields = record[0], record[1:]
    if word in ("segment", "seconds") and fields[0] == segment:
        return [record, [word, other, *fields[1:]]]
    if word == "forbid":
        return [record, *([word, *changed] for changed in with_other(fields, segment, other))]
    if word == "conflict" and segment in fields:
        return [[word, *members] for members in conflicts(fields, segment, other, touching)]
    return [record]


def meeting(segments, segment):
    """The segments that have a node in common with one of them, itself among them."""
    ends = set(segments[segment][2:4])
    return {name for name, record in segments.items() if ends & set(record[2:4])}


def doubled(data, segment):
    """The airport file with a second segment between the same nodes and for the same classes. Gives its bytes and the name of the second.

    The two have room at both ends: they conflict with no segment that meets them there. Otherwise whoever is on one of the two would shut
    the way to the other.
    """
    text = data.decode("utf-8-sig")
    records = [record for record in csv.reader(io.StringIO(text, newline="")) if record]
    segments = {record[1]: record for record in records if record[0] == "segment"}
    if segment not in segments:
        raise Refused(f"the airport has no segment {segment}")
    _, _, tail, head, direction = segments[segment]
    if tail == head:
        raise Refused(f"segment {segment} leads back to its own node, so it can't be doubled")
    other = name_beside(segment, segments)
    made, touching = [], meeting(segments, segment)
    for record in records:
        made += records_for(record, segment, other, touching)
    made += turns_back(segment, other, direction == "one")
    lines = io.StringIO()
    csv.writer(lines, lineterminator="\n").writerows(made)
    return lines.getvalue().encode(), other
