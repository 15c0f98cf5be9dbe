"""day.py AIRPORT COMMANDS [VERB [WORD]]: answers the commands of a file over the Python module, and writes what `taxi route` writes. With a
verb it writes what `taxi-tools VERB AIRPORT COMMANDS [WORD]` writes: plan, figures, explain, checkpoint or json."""

import sys

from rusboqan import Engine


def route(engine, lines):
    """The reply to each command, and their number."""
    count = 0
    for line in lines:
        reply = engine.answer_bytes(line)
        yield reply
        count += bool(reply)
    yield b"done %d\n" % count


def objects(engine, lines):
    """The object of each command, by its number in the file, and their number."""
    count = 0
    for number, line in enumerate(lines, 1):
        if engine.answer_bytes(line):
            yield engine.json(number).encode()
            count += 1
    yield b'{"done":%d}\n' % count


def explained(engine, lines, wanted):
    """Why the command of this number would be answered as it would."""
    commands = (line for line in lines if line.strip(b" \t\r\n") and not line.startswith(b"#"))
    for number, line in enumerate(commands, 1):
        if number == wanted:
            return engine.explain(line).text
        engine.answer_bytes(line)
    return b"no command %d\n" % wanted


def told(engine, lines, verb, word):
    """What a verb writes."""
    if verb == "explain":
        return explained(engine, lines, int(word))
    for line in lines:
        engine.answer_bytes(line)
    if verb == "figures":
        return "".join(f"{words} {number}\n" for words, number in engine.figures().items()).encode()
    return engine.plan_csv(word) if verb == "plan" else engine.checkpoint()


def main(airport, commands, verb="route", word=""):
    with Engine.of_file(airport) as engine, open(commands, "rb") as lines:
        texts = {"route": route, "json": objects}.get(verb)
        sys.stdout.buffer.writelines(texts(engine, lines) if texts else [told(engine, lines, verb, word)])


main(*sys.argv[1:])
