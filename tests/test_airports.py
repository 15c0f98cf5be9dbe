"""Airport files and schedules, with what is written of them found by hand."""

import unittest

from programs import Status
from router import FIRST_VERSION, ONE_STAND, SECOND_VERSION, SMALL, TWO_STANDS, RouterTest


class RefusedAirports(RouterTest):
    """The first record that breaks a rule, and the first rule that it breaks."""

    def is_refused(self, airport, record, word):
        line = b"airport refused at record %d: %s\n" % (record, word)
        self.route(airport, b"cancel X\n", line, Status.AIRPORT_REFUSED)
        self.expect("migrate airport.csv", {"airport.csv": airport}, Status.AIRPORT_REFUSED, line)

    def test_a_record_behind_the_others(self):
        for added, word in [
            (b"taxi-airport,1", b"unknown-row"),
            (b"clearance,M,10", b"unknown-row"),
            (b"node,R", b"field-count"),
            (b"node,R*,stand", b"bad-name"),
            (b"node,R,stand", b"name-twice"),
            (b"node,R,gate", b"name-twice"),
            (b"node,X,gate", b"bad-word"),
            (b"segment,E,R,X,both", b"unknown-name"),
            (b"seconds,A,M,0", b"bad-number"),
            (b"seconds,A,M,31", b"row-twice"),
            (b"forbid,A+,D+", b"no-such-arc"),
            (b"forbid,A+,A-", b"no-such-arc"),
            (b"conflict,B,D,B", b"row-twice"),
            (b"horizon,0", b"bad-number"),
            (b"horizon,60", b"row-twice"),
        ]:
            self.is_refused(SMALL + added + b"\n", 18, word)

    def test_a_record_behind_a_clearance(self):
        for clearance, added, word in [
            (b"10", b"clearance,M,10", b"row-twice"),
            (b"0", b"clearance,M,10", b"row-twice"),
            (b"10", b"clearance,M,601", b"bad-number"),
            (b"10", b"clearance,H,601", b"unknown-name"),
            (b"10", b"clearance,M", b"field-count"),
            (b"10", b"taxi-airport,2", b"unknown-row"),
        ]:
            self.is_refused(SECOND_VERSION + TWO_STANDS + b"clearance,M," + clearance + b"\n" + added + b"\n", 19, word)

    def test_the_first_and_the_last_record(self):
        for airport, record, word in [
            (b"", 1, b"first-row"),
            (b"taxi-airport,3\n", 1, b"first-row"),
            (b"taxi-airport,1\nnode,R,runway\nnode,R,stand\n", 3, b"name-twice"),
            (b"taxi-airport,1\nnode,R,runway\n", 2, b"no-horizon"),
            (b"taxi-airport,1\n" + TWO_STANDS, 16, b"no-horizon"),
        ]:
            self.is_refused(airport, record, word)

    def test_a_node_has_thirty_two_segment_ends(self):
        # J has three of them already.
        more = b"".join(b"segment,X%d,J,R,both\n" % k for k in range(30))
        self.is_refused(SMALL + more, 47, b"limit ends")

    def test_files_cut_short(self):
        for lost, record, word in [
            (b",15\nconflict,A,C\n", 16, b"field-count"),
            (b",C\n", 17, b"field-count"),
            (b"C\n", 17, b"bad-name"),
        ]:
            self.is_refused(SMALL.removesuffix(lost), record, word)


class WrittenAirports(RouterTest):
    """The canonical text of an airport."""

    def is_written_as(self, airport, text):
        self.expect("migrate airport.csv", {"airport.csv": airport}, Status.DONE, text)

    def test_the_version_is_brought_up(self):
        for rows in [ONE_STAND, TWO_STANDS]:
            self.is_written_as(FIRST_VERSION + rows, SECOND_VERSION + rows)

    def test_records_are_put_in_order(self):
        # Times, clearances, turns and the members of sets in another order, numbers with zeros in front, and the horizon last.
        mixed = b"""taxi-airport,2
class,M
class,L
node,R,runway
node,J,junction
clearance,M,0600
clearance,L,0
segment,A,R,J,both\r
class,H
node,S1,stand
clearance,H,1
segment,B,J,S1,both
seconds,B,H,040

seconds,A,H,60
seconds,B,M,20
conflict,B,A
node,K,junction
segment,C,J,K,one
forbid,B-,C+
forbid,A+,C+
forbid,A+,B+
conflict,C,A,B
seconds,A,M,30
horizon,60
"""
        in_order = b"""taxi-airport,2
horizon,60
node,R,runway
node,J,junction
node,S1,stand
node,K,junction
class,M
class,L
class,H
segment,A,R,J,both
segment,B,J,S1,both
segment,C,J,K,one
seconds,A,M,30
seconds,A,H,60
seconds,B,M,20
seconds,B,H,40
clearance,M,600
clearance,H,1
forbid,A+,B+
forbid,A+,C+
forbid,B-,C+
conflict,A,B
conflict,A,B,C
"""
        self.is_written_as(mixed, in_order)


class Schedules(RouterTest):
    """A day's schedule turned into commands, and schedules that are refused."""

    def comes_to(self, schedule, text, status=Status.DONE):
        self.expect("import airport.csv schedule.csv", {"airport.csv": SMALL, "schedule.csv": schedule}, status, text)

    def test_a_day(self):
        day = b"""taxi-schedule,1
start,2025-06-01T00:00:00+02:00
arrival,F1,M,R,S1,2025-06-01T00:01:40+02:00,0
departure,G1,M,S2,R,2025-05-31T22:05:00Z,60
arrival,F2,M,R,S1,2025-02-29T00:00:00Z,0
arrival,F3,M,R,S1,2025-05-31T23:59:59+02:00,0
"""
        self.comes_to(day, b"arrival F1 M R S1 100 0\ndeparture G1 M S2 R 300 60\n# row 5 bad-time\n# row 6 out-of-day\n")

    def test_a_row_for_each_fault(self):
        # Each row is wrong in all that comes after its own word too. The empty line is no record.
        day = b"""taxi-schedule,1

start,2024-02-29T23:59:59-14:59
arrivals,F1
arrival,F1
arrival,F 1,M,R,S1,x,x
arrival,F1,M,R,S1,2024-02-29T24:00:00Z,x
arrival,F1,M,R,S1,2024-03-01T15:00:00Z,12345678
arrival,F1,Q,R,S1,2024-03-01T15:00:00Z,007
arrival,F1,M,S1,R,2024-03-01T15:00:00Z,007
arrival,F1,M,R,S1,2024-03-01T14:58:58Z,007
arrival,F1,M,R,S1,2024-03-01T14:58:59-00:00,007
arrival,F1,M,R,S1,2024-03-01T15:58:58Z,0
arrival,F1,M,R,S1,2024-03-01T15:58:59Z,0
arrival,F1,M,R,S1,2024-03-01T15:58:58.0Z,0
"""
        text = b"""# row 3 unknown-row
# row 4 field-count
# row 5 bad-name
# row 6 bad-time
# row 7 bad-number
# row 8 unknown-name
# row 9 wrong-kind
# row 10 out-of-day
arrival F1 M R S1 0 7
arrival F1 M R S1 3599 0
# row 13 out-of-day
# row 14 bad-time
"""
        self.comes_to(day, text)

    def test_refused_schedules(self):
        for schedule, line in [
            (b"", b"schedule refused at record 1: first-row\n"),
            (b"start,2025-06-01T00:00:00Z\n", b"schedule refused at record 1: first-row\n"),
            (b"taxi-schedule,1\n", b"schedule refused at record 2: bad-start\n"),
            (b"taxi-schedule,1\narrival,F1,M,R,S1,2025-06-01T00:01:40Z,0\n", b"schedule refused at record 2: bad-start\n"),
        ]:
            self.comes_to(schedule, line, Status.SCHEDULE_REFUSED)


if __name__ == "__main__":
    unittest.main()
