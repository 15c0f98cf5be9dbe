"""Commands of each form with their replies worked by hand, and lines that are a word, a pair or a blank away from one."""

import unittest

from router import FIRST_VERSION, SECOND_RUNWAY, SECOND_VERSION, SMALL, TWO_STANDS, WAY_AROUND, RouterTest



class Replies(RouterTest):
    """Each command, answered and checked."""

    def test_a_work_party(self):
        dialogue = b"""> work W1 A 100 200
filed W1 100 200
> windows C
windows C 2
window 0 100
window 200 3600
> workdone W1
cancelled W1
> workdone W1
refused not-in-force
> windows C
windows C 1
window 0 3600
"""
        self.answers(SMALL, dialogue)

    def test_a_turn_that_is_forbidden(self):
        dialogue = b"""> file X1 M 0 A+ 30 B+ 50
refused step 2 bad-turn
> arrival F1 M R S1 100 0
no-route 3
label A+ 0 3600 130
label C+ 0 3600 155
label D+ 0 3600 170
> arrival F1 M R S2 100 0
route F1 170 3 2
step A+ 100 130
step C+ 130 155
step D+ 155 170
label A+ 0 3600 130
label C+ 0 3600 155
> divert F1 110 S1
no-route 3
label A+ 0 3600 130
label C+ 0 3600 155
label D+ 0 3600 170
"""
        self.answers(SMALL + b"forbid,A+,B+\n", dialogue)

    def test_what_is_held(self):
        dialogue = b"""> file F1 M 100 A+ 130 C+ 155 D+ 170
filed F1 100 170
> file X2 M 155 C+ 180 D+ 195
filed X2 155 195
> occupancy A
occupancy A 3
held 100 130 F1 A
held 130 155 F1 C
held 155 180 X2 C
> timetable
timetable 2
flight F1 filed M 100 170
flight X2 filed M 155 195
> windows A
windows A 2
window 0 100
window 180 3600
> cancel F1
cancelled F1
> windows A
windows A 2
window 0 155
window 180 3600
"""
        self.answers(SMALL, dialogue)

    def test_flights_under_way(self):
        dialogue = b"""> arrival F1 M R S2 100 0
route F1 170 3 3
step A+ 100 130
step C+ 130 155
step D+ 155 170
label A+ 0 3600 130
label B+ 0 3600 150
label C+ 0 3600 155
> reroute F1 135
route F1 170 3 1
step A+ 100 130
step C+ 130 155
step D+ 155 170
label C+ 0 3600 155
> reroute F1 170
refused already-done 170
> cancel F1
cancelled F1
> departure G1 M S2 R 300 0
route G1 230 3 3
step D- 230 245
step C- 245 270
step A- 270 300
label A- 0 3600 270
label B- 0 3600 250
label C- 0 3600 245
> reroute G1 230
refused already-moving 230
> divert G1 1 S1
refused not-arrival
> file X1 M 0 B+ 20
filed X1 0 20
> reroute X1 1
refused not-routed
> divert X1 1 S2
refused not-routed
> departure F9 M R S1 1 1
refused wrong-kind
"""
        self.answers(SMALL, dialogue)

    def test_a_choice_of_nodes(self):
        # S1 is nearer than S2 until X1 holds the way to it. From S2 to R it takes 70 seconds, and to R2 55.
        dialogue = b"""> departure-any G1 M S2 200 0 R R2
route G1 145 2 3
step D- 145 160
step E+ 160 200
label A- 0 3600 170
label B- 0 3600 150
label E+ 0 3600 160
> cancel G1
cancelled G1
> arrival-any F1 M R 100 0 S2 S1
route F1 150 2 1
step A+ 100 130
step B+ 130 150
label A+ 0 3600 130
> file X1 M 150 B- 600
filed X1 150 600
> arrival-any F2 M R 200 0 S1 S2
route F2 270 3 2
step A+ 200 230
step C+ 230 255
step D+ 255 270
label A+ 130 3600 230
label C+ 130 3600 255
"""
        self.answers(SMALL + SECOND_RUNWAY, dialogue)

    def test_a_batch(self):
        # F1 can't wait, and F2 can.
        dialogue = b"""> batch arrival F2 M R S1 100 60 arrival F1 M R S1 100 0
batch 2 130
next F1
route F1 150 2 1
step A+ 100 130
step B+ 130 150
label A+ 0 3600 130
next F2
route F2 180 2 1
step A+ 130 160
step B+ 160 180
label A+ 130 3600 160
> batch departure G1 M S2 R 400 0 arrival G1 M R S2 500 0
refused in-force
"""
        self.answers(SMALL, dialogue)

    def test_a_late_flight(self):
        # F1 stops on B. F2 has entered A and goes around B, F3 waits in front of A, and X1 is dropped.
        dialogue = b"""> arrival F1 M R S1 100 0
route F1 170 3 3
step A+ 100 130
step B+ 130 150
step C+ 150 170
label A+ 0 3600 130
label B+ 0 3600 150
label D+ 0 3600 155
> arrival F2 M R S2 130 60
route F2 200 3 3
step A+ 130 160
step B+ 160 180
step F+ 180 200
label A+ 130 3600 160
label B+ 150 3600 180
label D+ 0 3600 185
> arrival F3 H R S2 160 300
route F3 230 3 2
step A+ 160 190
step B+ 190 210
step F+ 210 230
label A+ 160 3600 190
label B+ 180 3600 210
> file X1 M 240 B+ 260
filed X1 240 260
> late F1 140 300
late F1 4
next F1
route F1 320 3 1
step A+ 100 130
step B+ 130 300
step C+ 300 320
label B+ 0 3600 300
next F2
route F2 230 4 3
step A+ 130 160
step D+ 160 185
step E+ 185 210
step F+ 210 230
label A+ 130 3600 160
label D+ 0 3600 185
label E+ 0 3600 210
next F3
route F3 340 3 2
step A+ 160 300
step B+ 300 320
step F+ 320 340
label A+ 160 3600 190
label B+ 300 3600 320
dropped X1
> late F1 90 400
refused not-moving 100
> late F1 310 320
refused not-late 320
> late F1 310 3601
refused past-end 3600
"""
        self.answers(FIRST_VERSION + WAY_AROUND, dialogue)


class Windows(RouterTest):
    """Routes between what is held, and what a clearance keeps shut."""

    def test_between_two_work_parties(self):
        # From 60 on an arrival just fits in front of W1, and a second later it doesn't.
        dialogue = b"""> work W1 A 90 140
filed W1 90 140
> work W2 B 120 160
filed W2 120 160
> arrival F1 M R S1 60 0
route F1 110 2 1
step A+ 60 90
step B+ 90 110
label A+ 0 90 90
> cancel F1
cancelled F1
> arrival F1 M R S1 61 0
no-route 0
> arrival F1 M R S1 100 60
route F1 190 2 1
step A+ 140 170
step B+ 170 190
label A+ 140 3600 170
> cancel F1
cancelled F1
> departure G1 M S2 R 200 0
route G1 130 3 2
step D- 130 145
step C- 145 170
step A- 170 200
label A- 140 3600 170
label C- 140 3600 145
"""
        self.answers(SMALL, dialogue)

    def test_a_clearance(self):
        # The one on D would end after the horizon.
        dialogue = b"""> file X1 M 100 A+ 130 B+ 150
filed X1 100 150
> file X2 M 3500 D+ 3595
filed X2 3500 3595
> windows A
windows A 2
window 0 100
window 140 3600
> windows B
windows B 2
window 0 130
window 160 3600
> windows C
windows C 2
window 0 100
window 140 3600
> windows D
windows D 1
window 0 3500
> departure G1 M S2 R 200 0
route G1 130 3 2
step D- 130 145
step C- 145 170
step A- 170 200
label A- 140 3600 170
label C- 140 3600 145
> cancel G1
cancelled G1
> cancel X1
cancelled X1
> cancel X2
cancelled X2
> windows A
windows A 1
window 0 3600
> windows B
windows B 1
window 0 3600
> windows D
windows D 1
window 0 3600
"""
        self.answers(SECOND_VERSION + TWO_STANDS + b"clearance,M,10\n", dialogue)


class Lines(RouterTest):
    """What is a line, a number, a name or a word of an arc."""

    def test_lines_are_cut_at_line_feeds(self):
        # A carriage return before a line feed is no part of the line. A comment begins at the first byte.
        commands = b"cancel F1\r\n\n#x\r\r\n \t\n #\ncancel F1\r\r\ncancel F1\r"
        text = b"refused not-in-force\nrefused bad-line\nrefused bad-line\nrefused not-in-force\ndone 4\n"
        self.route(SMALL, commands, text)

    def test_lines_of_no_form(self):
        bad = [
            b"cancel",
            b"cancel  F1",
            b"cancel F1 ",
            b" cancel F1",
            b"cancel\tF1",
            b"cancel F*",
            b"cancel F\xff",
            b"cancel F1234567890123456",
            b"Cancel F1",
            b"timetable now",
            b"reroute F1 00000001",
            b"reroute F1 +1",
            b"work W1 A 100",
            b"workdone",
            b"file F1 M 0",
            b"file F1 M 0 A+ 30 B+",
            b"file F1 M 0 A 30",
            b"file F1 M 0 + 30",
            b"arrival-any F1 M R 100 30",
            b"departure-any G1 M S2 200 60",
            b"batch arrival F1 M R S1 0 600",
            b"late F1 12",
            b"late F1 12 60 S2",
        ]
        self.answers(SMALL, b"".join(b"> %s\nrefused bad-line\n" % it for it in bad))

    def test_numbers_and_words_of_arcs(self):
        # A number has seven digits at most, and is printed without zeros in front. The segment A- has a sign for its last byte.
        dialogue = b"""> file F1 M 0000007 A-- 0000060
filed F1 7 60
> file F2 M 100 A-+ 130
filed F2 100 130
> file F3 M 9999999 A+ 9999999
refused step 1 too-fast
> file F3 M 0 D-- 30
refused unknown-segment
> occupancy A-
occupancy A- 2
held 7 60 F1 A-
held 100 130 F2 A-
"""
        self.answers(SMALL + b"segment,A-,R,J,both\nseconds,A-,M,30\n", dialogue)

    def test_names_are_in_order_of_their_bytes(self):
        dialogue = b"""> file F2 M 0 A+ 30
filed F2 0 30
> file F10 M 30 A+ 60
filed F10 30 60
> file F1 M 60 A+ 90
filed F1 60 90
> timetable
timetable 3
flight F1 filed M 60 90
flight F10 filed M 30 60
flight F2 filed M 0 30
"""
        self.answers(SMALL, dialogue)

    def test_lists_have_a_greatest_length(self):
        in_time = b"route F1 50 2 1\nstep A+ 0 30\nstep B+ 30 50\nlabel A+ 0 3600 30\n"
        out_in_time = b"""route G1 130 3 3
step D- 130 145
step C- 145 170
step A- 170 200
label A- 0 3600 170
label B- 0 3600 150
label C- 0 3600 145
"""
        for front, piece, most, reply in [
            (b"file F1 M 0", b" A+ 1", 256, b"refused step 1 too-fast\n"),
            (b"arrival-any F1 M R 0 0", b" S1", 16, in_time),
            (b"departure-any G1 M S2 200 60", b" R", 16, out_in_time),
            (b"batch", b" arrival F1 M R S1 0 600", 6, b"refused in-force\n"),
        ]:
            longest = front + piece * most
            self.answers(SMALL, b"> %s\n%s> %s\nrefused bad-line\n" % (longest, reply, longest + piece))


if __name__ == "__main__":
    unittest.main()
