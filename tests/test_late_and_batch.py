"""Late flights and batches, each arm of them: with the replies worked by hand."""

import unittest

from router import FIRST_VERSION, SMALL, TWO_STANDS, WAY_AROUND, RouterTest

# A day that ends early, so that the windows behind what is held are short.
SHORT_DAY = b"taxi-airport,1\nhorizon,400\n" + TWO_STANDS
# F1 holds A from 100 to 130, and B from then to 150.
F1_TO_THE_FIRST_STAND = b"""> arrival F1 M R S1 100 0
route F1 150 2 1
step A+ 100 130
step B+ 130 150
label A+ 0 400 130
"""


class LateFlights(RouterTest):
    """A late flight, and whoever is in its way, by kind and by how far each has come."""

    def test_the_late_flight_is_alone(self):
        # On its last segment it ends when it leaves, with nothing to look for.
        dialogue = b"""> late F1 140 200
late F1 1
next F1
route F1 200 2 0
step A+ 100 130
step B+ 130 200
> timetable
timetable 1
flight F1 arrival M 100 200
"""
        self.answers(SHORT_DAY, F1_TO_THE_FIRST_STAND + dialogue)

    def test_an_arrival_that_cannot_wait_so_long(self):
        # F2 may enter A until 160, and A is free at 200. It is out afterwards.
        dialogue = b"""> arrival F2 M R S1 100 60
route F2 180 2 1
step A+ 130 160
step B+ 160 180
label A+ 130 400 160
> late F1 110 200
late F1 2
next F1
route F1 220 2 1
step A+ 100 200
step B+ 200 220
label A+ 0 400 200
next F2
no-route 0
> reroute F2 0
refused not-in-force
"""
        self.answers(SHORT_DAY, F1_TO_THE_FIRST_STAND + dialogue)

    def test_a_late_flight_with_no_way_on(self):
        # X1 keeps B until the end of the day. F1 stays on A until 200, and is as filed by hand from then on.
        dialogue = b"""> arrival F1 M R S1 100 0
route F1 150 2 1
step A+ 100 130
step B+ 130 150
label A+ 0 3600 130
> file X1 M 200 B+ 3600
filed X1 200 3600
> late F1 110 200
late F1 1
next F1
no-route 3
label A+ 0 3600 200
label C+ 0 3600 225
label D+ 0 3600 240
> timetable
timetable 2
flight F1 filed M 100 200
flight X1 filed M 200 3600
> late F1 120 250
refused not-routed
"""
        self.answers(SMALL, dialogue)

    def test_a_departure_that_is_late_itself(self):
        dialogue = b"""> departure G1 M S2 R 200 0
route G1 130 3 3
step D- 130 145
step C- 145 170
step A- 170 200
label A- 0 400 170
label B- 0 400 150
label C- 0 400 145
> late G1 150 210
late G1 1
next G1
route G1 240 3 2
step D- 130 145
step C- 145 210
step A- 210 240
label B+ 0 400 230
label C- 0 400 210
> timetable
timetable 1
flight G1 filed M 130 240
> reroute G1 155
refused not-routed
"""
        self.answers(SHORT_DAY, dialogue)

    def test_a_departure_that_had_begun(self):
        # G1 is on B, waits there for A, and is as filed by hand afterwards.
        dialogue = b"""> departure G1 M S1 R 160 0
route G1 110 2 1
step B- 110 130
step A- 130 160
label A- 130 400 130
> late F1 115 200
late F1 2
next F1
route F1 220 2 1
step A+ 100 200
step B+ 200 220
label A+ 0 400 200
next G1
route G1 230 2 2
step B- 110 200
step A- 200 230
label B- 0 200 130
label C+ 200 400 225
> timetable
timetable 2
flight F1 arrival M 100 220
flight G1 filed M 110 230
"""
        self.answers(SHORT_DAY, F1_TO_THE_FIRST_STAND + dialogue)

    def test_a_departure_that_had_not_begun(self):
        # F1 keeps B until 300. G1 goes around it.
        dialogue = b"""> arrival F1 M R S1 100 0
route F1 170 3 3
step A+ 100 130
step B+ 130 150
step C+ 150 170
label A+ 0 3600 130
label B+ 0 3600 150
label D+ 0 3600 155
> departure G1 M S2 R 320 0
route G1 250 3 3
step F- 250 270
step B- 270 290
step A- 290 320
label A- 130 3600 290
label B- 150 3600 270
label D- 0 3600 265
> late F1 140 300
late F1 2
next F1
route F1 320 3 1
step A+ 100 130
step B+ 130 300
step C+ 300 320
label B+ 0 3600 300
next G1
route G1 220 4 3
step F- 220 240
step E- 240 265
step D- 265 290
step A- 290 320
label A- 130 3600 290
label D- 0 3600 265
label E- 0 3600 240
> timetable
timetable 2
flight F1 arrival M 100 320
flight G1 departure M 220 320
"""
        self.answers(FIRST_VERSION + WAY_AROUND, dialogue)

    def test_a_departure_that_had_not_begun_and_has_no_way(self):
        # Of the table the values after 110 alone are printed.
        dialogue = b"""> departure G1 M S2 R 205 0
route G1 135 3 3
step D- 135 150
step C- 150 175
step A- 175 205
label A- 130 400 175
label B- 150 400 155
label C- 130 400 150
> late F1 110 170
late F1 2
next F1
route F1 190 2 1
step A+ 100 170
step B+ 170 190
label A+ 0 400 170
next G1
no-route 2
label A- 170 400 175
label B- 0 170 150
> timetable
timetable 1
flight F1 arrival M 100 190
"""
        self.answers(SHORT_DAY, F1_TO_THE_FIRST_STAND + dialogue)

    def test_filed_by_hand(self):
        # X1 has begun, and stays where it is at 110. X2 has not, and is out.
        dialogue = b"""> file X1 M 90 D- 135 C- 160
filed X1 90 160
> file X2 M 160 A+ 190
filed X2 160 190
> late F1 110 165
late F1 3
next F1
route F1 185 2 1
step A+ 100 165
step B+ 165 185
label A+ 0 400 165
dropped X1
dropped X2
> timetable
timetable 2
flight F1 arrival M 100 185
flight X1 filed M 90 110
> windows D
windows D 2
window 0 90
window 110 400
"""
        self.answers(SHORT_DAY, F1_TO_THE_FIRST_STAND + dialogue)

    def test_a_work_party(self):
        dialogue = b"""> work W1 A 200 300
filed W1 200 300
> late F1 110 250
late F1 2
next F1
route F1 270 2 1
step A+ 100 250
step B+ 250 270
label A+ 0 400 250
dropped W1
> workdone W1
refused not-in-force
"""
        self.answers(SHORT_DAY, F1_TO_THE_FIRST_STAND + dialogue)

    def test_refusals(self):
        dialogue = b"""> file X1 M 200 A+ 230
filed X1 200 230
> late F9 110 200
refused not-in-force
> late X1 210 300
refused not-routed
> late F1 150 200
refused already-done 150
> late F1 50 200
refused not-moving 100
> late F1 110 130
refused not-late 130
> late F1 110 401
refused past-end 400
"""
        self.answers(SHORT_DAY, F1_TO_THE_FIRST_STAND + dialogue)


class Batches(RouterTest):
    """Batches that are exchanged at another place than the first, or not at all."""

    def test_an_exchange_behind_a_departure(self):
        # F1 cannot wait. In the order given F2 takes its seconds on A, and the total is 1,000,120.
        dialogue = b"""> batch departure G1 M S2 R 400 0 arrival F2 M R S1 100 60 arrival F1 M R S1 100 0
batch 3 200
next G1
route G1 330 3 3
step D- 330 345
step C- 345 370
step A- 370 400
label A- 0 3600 370
label B- 0 3600 350
label C- 0 3600 345
next F1
route F1 150 2 1
step A+ 100 130
step B+ 130 150
label A+ 0 345 130
next F2
route F2 180 2 1
step A+ 130 160
step B+ 160 180
label A+ 130 345 160
"""
        self.answers(SMALL, dialogue)

    def test_a_flight_without_a_route(self):
        # F1 stands third, and only as the first of all would it have a way: no exchange of two neighbours helps.
        dialogue = b"""> batch arrival F2 M R S1 100 60 arrival F3 M R S1 100 200 arrival F1 M R S1 100 0
batch 3 1000130
next F2
route F2 150 2 1
step A+ 100 130
step B+ 130 150
label A+ 0 3600 130
next F3
route F3 180 2 1
step A+ 130 160
step B+ 160 180
label A+ 130 3600 160
next F1
no-route 0
> cancel F1
refused not-in-force
"""
        self.answers(SMALL, dialogue)

    def test_a_departure_without_a_route(self):
        # Both could be served, for 9,999,964 seconds: a flight without a route costs less than this departure.
        dialogue = b"""> work W1 A 0 200
filed W1 0 200
> work W2 A 235 300
filed W2 235 300
> work W3 A 335 400
filed W3 335 400
> work W4 B 255 325
filed W4 255 325
> batch departure G1 M S1 R 9999999 9999999 arrival F1 M R S1 200 150
batch 2 1000050
next F1
route F1 250 2 1
step A+ 200 230
step B+ 230 250
label A+ 200 235 230
next G1
no-route 1
label A- 300 335 305
> timetable
timetable 1
flight F1 arrival M 200 250
"""
        self.answers(SHORT_DAY, dialogue)

    def test_six_flights(self):
        asked = b" ".join(b"arrival F%d M R S1 %d00 0" % (k, k) for k in range(1, 7))
        reply = b"batch 6 300\n"
        for k in range(1, 7):
            free_from = 100 * (k - 1) + 30 if k > 1 else 0
            enter, leave, end = 100 * k, 100 * k + 30, 100 * k + 50
            reply += b"next F%d\nroute F%d %d 2 1\n" % (k, k, end)
            reply += b"step A+ %d %d\nstep B+ %d %d\nlabel A+ %d 3600 %d\n" % (enter, leave, leave, end, free_from, leave)
        self.answers(SMALL, b"> batch %s\n%s" % (asked, reply))

    def test_refusals(self):
        # The requests are tried one after the other, each for all that may refuse it.
        dialogue = b"""> work W1 A 0 10
filed W1 0 10
> batch arrival F1 Q R S1 100 0 arrival W1 M R S1 100 0
refused unknown-class
> batch arrival F1 M R S1 100 0 arrival W1 M R S1 100 0
refused in-force
> batch arrival F1 M R S1 100 0 arrival F1 Q R X 100 0
refused in-force
> batch arrival F1 M S1 R 100 0 arrival F2 M R X 100 0
refused wrong-kind
> batch arrival F1 M R X 100 0 arrival F2 M S1 R 100 0
refused unknown-node
"""
        self.answers(SMALL, dialogue)


if __name__ == "__main__":
    unittest.main()
