"""Makes a day in which each aircraft holds its stand: after an arrival a work party shuts the pieces at its stand.

The commands are sent one by one, since only the answers tell from when to when an aircraft is there. Before a departure is asked
for, the work party at its stand is taken out; once it has its route, the party comes back up to the begin of that.
"""
import json
import subprocess
from dataclasses import dataclass, field

from day_replay.commands import ASKS_ROUTE, names_in, own_time, read_commands
from endings import Stopped

LONGEST_NAME = 16
REPLACES = ("reroute", "divert", "cancel")


class Router:
    """A run of `taxi-tools json AIRPORT -`, which answers each command as soon as its line has ended."""

    def __init__(self, program, airport):
        words = [program, "json", airport, "-"]
        try:
            self.process = subprocess.Popen(words, stdin=subprocess.PIPE, stdout=subprocess.PIPE)
        except OSError as fault:
            raise Stopped(f"{program} can't be run: {fault.strerror}") from fault

    def ask(self, line):
        """The reply to a line."""
        try:
            self.process.stdin.write(line.encode("utf-8", errors="replace") + b"\n")
            self.process.stdin.flush()
        except BrokenPipeError:
            pass
        answer = self.process.stdout.readline().decode("utf-8", errors="replace")
        if not answer.startswith("{"):
            status = self.process.wait()
            raise Stopped(f"the program ended with status {status}: {answer.strip() or 'no reason is given'}", max(status, 1))
        return json.loads(answer)

    def close(self):
        """Ends the commands."""
        self.process.stdin.close()
        self.process.stdout.read()
        self.process.wait()


@dataclass
class Hold:
    """An aircraft that holds its stand: the flight that came, and the work parties with their segments."""

    flight: str
    stand: str
    begin: int
    until: int
    parties: dict = field(default_factory=dict)  # name -> segment


class Holder:
    """Writes the commands of a day with those that hold stands; `lines` has what was written."""

    def __init__(self, router, airport, registrations):
        self.router, self.airport, self.registrations = router, airport, registrations
        self.lines, self.holds, self.planned = [], [], []
        self.used, self.classes, self.stands, self.count = set(), {}, set(), 0

    def take_all(self, data):
        """Takes a command file. Comments and blank lines are left out."""
        commands = read_commands(data)
        self.used = {name for command in commands for name in names_in(command.words)}
        self.planned = [found for command in commands for found in departures_of(command.words)]
        for command in commands:
            if command.words[0] == "late":
                raise Stopped(f"line {command.line}: a late flight moves others, and held stands can't follow that: {command.text}")
            self.take(command)

    def send(self, line):
        """Writes a line and gives the reply to it."""
        self.lines.append(line)
        return self.router.ask(line)

    def take(self, command):
        """Sends a command, with the holds of its stands taken out before it and set after it."""
        leaving = departures_of(command.words)
        self.planned = [one for one in self.planned if one not in leaving]
        taken = {flight: hold for flight, stand, _ in leaving if (hold := self.hold_for(flight, stand)) is not None}
        changed = [hold for hold in self.holds if command.words[0] in REPLACES and hold.flight == command.words[1]]
        for hold in [*taken.values(), *changed]:
            self.release(hold)
        reply = self.send(command.text)
        begun, arrived = self.told_by(reply, command)
        for flight, hold in taken.items():
            self.set(hold, begun.get(flight, hold.until))
        for flight, (stand, begin) in arrived.items():
            self.come(flight, stand, begin)
        if changed and reply["reply"] not in ("cancelled", "route"):
            for hold in changed:
                self.set(hold, hold.until)
                self.holds.append(hold)

    def hold_for(self, flight, stand):
        """The hold that a departure ends: of its own aircraft, or else the first at its stand."""
        there = [hold for hold in self.holds if hold.stand == stand]
        own = [hold for hold in there if self.aircraft(hold.flight) == self.aircraft(flight)]
        others = [hold for hold in there if self.may_take(flight, hold.flight)]
        return next(iter([*own, *others]), None)

    def aircraft(self, flight):
        """What names the aircraft of a flight."""
        return self.registrations.get(flight, flight)

    def release(self, hold):
        """Takes the work parties of a hold out."""
        if hold in self.holds:
            self.holds.remove(hold)
        for party in hold.parties:
            self.send(f"workdone {party}")

    def set(self, hold, until):
        """Sets the work parties of a hold up to a second; tells in a comment where one is refused."""
        kept = {}
        for party, segment in hold.parties.items():
            if hold.begin < until:
                reply = self.send(f"work {party} {segment} {hold.begin} {until}")
                if reply["reply"] == "filed":
                    kept[party] = segment
                else:
                    by = f" by {reply['by']} at {reply['at']}" if "by" in reply else ""
                    self.lines[-1] = f"# not held: {hold.stand} for {hold.flight} from {hold.begin} up to {until}, taken{by}"
        hold.parties, hold.until = kept, until

    def come(self, flight, stand, begin):
        """Holds a stand for the flight that comes there."""
        found = next((time for name, at, time in self.planned if at == stand and self.may_take(name, flight) and time > begin), None)
        segments = segments_at(self.airport, stand)
        hold = Hold(flight, stand, begin, begin, {self.party_name(flight): segment for segment in segments})
        self.set(hold, self.airport.horizon if found is None else min(found, self.airport.horizon))
        if hold.parties:
            self.stands.add(stand)
            self.holds.append(hold)

    def may_take(self, departure, arrival):
        """Whether a departure may be that of an arrival's aircraft."""
        known = departure in self.registrations or arrival in self.registrations
        return not known or self.aircraft(departure) == self.aircraft(arrival)

    def party_name(self, flight):
        """A name for a work party that nothing else has."""
        name = f"AT-{flight}"
        while len(name) > LONGEST_NAME or name in self.used:
            self.count += 1
            name = f"AT-{self.count}"
        self.used.add(name)
        return name

    def told_by(self, reply, command):
        """When departures begin, and to which stands flights come from when on, as a reply tells it."""
        begun, arrived = {}, {}
        for flight, steps, class_name in self.ways(reply, command):
            origin, goal = self.airport.tail(self.airport.arc(steps[0][0])), self.airport.head(self.airport.arc(steps[-1][0]))
            begun[flight] = steps[0][1]
            if self.airport.nodes[goal][1] == "stand" and self.airport.nodes[origin][1] != "stand":
                clearance = self.airport.clearance_of(self.airport.class_number[class_name])
                arrived[flight] = (self.airport.nodes[goal][0], min(self.airport.horizon, steps[-1][2] + clearance))
        return begun, arrived

    def ways(self, reply, command):
        """The flights that a reply puts in force, with their steps and their classes."""
        words = command.words
        if reply["reply"] == "filed" and words[0] == "file":
            enters = [int(words[3]), *map(int, words[5::2])]
            yield words[1], list(zip(words[4::2], enters, enters[1:])), words[2]
        if reply["reply"] in ("route", "batch"):
            for entry in reply.get("entries", [reply]):
                if entry["reply"] == "route":
                    steps = [(step["arc"], step["enter"], step["leave"]) for step in entry["steps"]]
                    yield entry["flight"], steps, self.class_of(entry, words)

    def class_of(self, entry, words):
        """The class of a flight that got a route."""
        if words[0] in ASKS_ROUTE or words[0] == "batch":
            self.classes[entry["flight"]] = next(words[at + 1] for at, word in enumerate(words) if word == entry["flight"])
        return self.classes[entry["flight"]]


def departures_of(words):
    """The departures that a command asks for: each flight, the stand that it leaves and the second at its runway node."""
    groups = [words[at:at + 7] for at in range(1, len(words), 7)] if words[0] == "batch" else [words]
    return [(group[1], group[3], own_time(group)) for group in groups if group[0].startswith("departure") and own_time(group) is not None]


def segments_at(airport, stand):
    """The segments that end at a stand and that some class may use."""
    node, used = airport.node_number[stand], {segment for segment, _ in airport.seconds}
    return [one.name for number, one in enumerate(airport.segments) if node in (one.tail, one.head) and number in used]
