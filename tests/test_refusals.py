"""The refusals that each command can get, and choices that come to nothing."""

import unittest

from router import SECOND_RUNWAY, SMALL, RouterTest

# F1 is routed and ends at 150, G1 leaves its stand at 330, X1 was given by hand, and W1 works on D.
FRONT = b"""> arrival F1 M R S1 100 0
route F1 150 2 1
step A+ 100 130
step B+ 130 150
label A+ 0 3600 130
> departure G1 M S2 R 400 0
route G1 330 3 3
step D- 330 345
step C- 345 370
step A- 370 400
label A- 130 3600 370
label B- 150 3600 350
label C- 130 3600 345
> file X1 M 500 A+ 530
filed X1 500 530
> work W1 D 600 700
filed W1 600 700
"""


class Refusals(RouterTest):
    """Each in front of those behind it in their order, where a line can deserve both."""

    def are_refused(self, *pairs):
        dialogue = b"".join(b"> %s\nrefused %s\n" % pair for pair in pairs)
        self.answers(SMALL + b"class,H\n", FRONT + dialogue)

    def test_flights_given_by_hand(self):
        self.are_refused(
            (b"file F1 Q 0 Z+ 30", b"in-force"),
            (b"file W1 M 0 A+ 30", b"in-force"),
            (b"file X9 Q 0 Z+ 30", b"unknown-class"),
            (b"file X9 M 0 Z+ 30", b"unknown-segment"),
            (b"file X9 H 0 A+ 29", b"step 1 class-barred"),
            (b"file X9 M 0 A+ 30 A- 59", b"step 2 bad-turn"),
            (b"file X9 M 90 A+ 119", b"step 1 too-fast"),
            (b"file X9 M 3590 A+ 3620", b"step 1 past-horizon"),
            (b"file X9 M 0 A+ 110", b"step 1 taken 100 F1"),
            (b"file X9 M 590 D+ 605", b"step 1 taken 600 W1"),
        )

    def test_requests(self):
        # The form of a choice has the numbers in front of its nodes.
        for arrival, departure in [
            (b"arrival %s %s %s %s 0 0", b"departure %s %s %s %s 0 0"),
            (b"arrival-any %s %s %s 0 0 %s", b"departure-any %s %s %s 0 0 %s"),
        ]:
            self.are_refused(
                (arrival % (b"X1", b"Q", b"R", b"S9"), b"in-force"),
                (arrival % (b"F9", b"Q", b"R", b"S9"), b"unknown-class"),
                (arrival % (b"F9", b"M", b"S1", b"S9"), b"unknown-node"),
                (arrival % (b"F9", b"M", b"R", b"R"), b"wrong-kind"),
                (departure % (b"W1", b"Q", b"S2", b"R9"), b"in-force"),
                (departure % (b"G9", b"Q", b"S2", b"R9"), b"unknown-class"),
                (departure % (b"G9", b"M", b"J", b"R9"), b"unknown-node"),
                (departure % (b"G9", b"M", b"J", b"R"), b"wrong-kind"),
            )
        self.are_refused(
            (b"arrival-any F9 M R 0 0 S1 R S9", b"unknown-node"),
            (b"arrival-any F9 M R 0 0 S1 R", b"wrong-kind"),
            (b"departure-any G9 M S2 0 0 R S1", b"wrong-kind"),
        )

    def test_work_parties(self):
        self.are_refused(
            (b"work W1 Z 0 10", b"in-force"),
            (b"work F1 A 0 10", b"in-force"),
            (b"work W9 Z 0 10", b"unknown-segment"),
            (b"work W9 A 110 110", b"step 1 too-fast"),
            (b"work W9 A 110 3601", b"step 1 past-horizon"),
            (b"work W9 A 90 110", b"step 1 taken 100 F1"),
            (b"work W9 C 90 110", b"step 1 taken 100 F1"),
            (b"work W9 D 650 651", b"step 1 taken 650 W1"),
            (b"workdone W9", b"not-in-force"),
            (b"workdone F1", b"not-in-force"),
            (b"cancel F9", b"not-in-force"),
        )

    def test_flights_under_way(self):
        self.are_refused(
            (b"reroute F9 100", b"not-in-force"),
            (b"reroute W1 100", b"not-in-force"),
            (b"reroute X1 100", b"not-routed"),
            (b"reroute F1 150", b"already-done 150"),
            (b"reroute G1 330", b"already-moving 330"),
            (b"divert F9 100 S9", b"unknown-node"),
            (b"divert F9 100 R", b"wrong-kind"),
            (b"divert F9 100 S2", b"not-in-force"),
            (b"divert X1 100 S2", b"not-routed"),
            (b"divert G1 100 S2", b"not-arrival"),
            (b"divert F1 150 S2", b"already-done 150"),
        )

    def test_reports(self):
        self.are_refused((b"windows Z", b"unknown-segment"), (b"occupancy Z", b"unknown-segment"), (b"timetable now", b"bad-line"))


class Choices(RouterTest):
    """Choices with no route to any of the nodes."""

    def test_no_route_to_any(self):
        # W1 and W2 keep both stands shut. A departure can't be at R2 by 30, which is 55 seconds away.
        dialogue = b"""> work W1 B 0 3600
filed W1 0 3600
> work W2 D 0 3600
filed W2 0 3600
> arrival-any F1 M R 100 0 S2 S1
no-route 3
label A+ 0 3600 130
label C+ 0 3600 155
label E+ 0 3600 195
> departure-any G1 M S2 30 0 R R2
no-route 1
label A- 0 3600 0
> workdone W2
cancelled W2
> arrival-any F1 M R 100 0 S2 S1
route F1 170 3 2
step A+ 100 130
step C+ 130 155
step D+ 155 170
label A+ 0 3600 130
label C+ 0 3600 155
"""
        self.answers(SMALL + SECOND_RUNWAY, dialogue)


if __name__ == "__main__":
    unittest.main()
