"""Where the classes of an airport can go while nobody else is about."""


def classes_at(airport, stand):
    """The classes that may use a segment at a stand, in the order of the file."""
    node = airport.node_number[stand]
    at_stand = [number for number, segment in enumerate(airport.segments) if node in (segment.tail, segment.head)]
    return [name for name, number in airport.class_number.items() if any((segment, number) in airport.seconds for segment in at_stand)]


def leaving(airport, class_name):
    """The arcs that a class may use, by the nodes at which they begin."""
    class_number, arcs = airport.class_number[class_name], {}
    for number, segment in enumerate(airport.segments):
        if (number, class_number) in airport.seconds:
            arcs.setdefault(segment.tail, []).append(2 * number)
            if not segment.one_way:
                arcs.setdefault(segment.head, []).append(2 * number + 1)
    return arcs


def is_turn(airport, arc, other):
    """Whether an arc may follow one that ends where it begins: no aircraft turns back on its segment."""
    return other // 2 != arc // 2 and (airport.arc_word(arc), airport.arc_word(other)) not in airport.forbidden


def reached(airport, class_name, start):
    """The names of the nodes to which walks of a class from a node lead."""
    arcs = leaving(airport, class_name)
    waiting = list(arcs.get(airport.node_number[start], ()))
    seen = set(waiting)
    for arc in waiting:
        onward = [other for other in arcs.get(airport.head(arc), ()) if other not in seen and is_turn(airport, arc, other)]
        seen.update(onward)
        waiting += onward
    return {airport.head_name(arc) for arc in seen}
