"""What the tools write of a run with replies of each form, worked by hand."""

import unittest

import programs
from programs import Status
from router import SECOND_VERSION, SMALL, TWO_STANDS

WITH_CLEARANCE = SECOND_VERSION + TWO_STANDS + b"clearance,M,10\n"
# F2 can't wait until F1, which is late, leaves A. G1 has begun when it is late, and is as filed by hand from then on.
LATE = b"""arrival F1 M R S1 100 0
arrival F2 M R S1 100 60
late F1 110 200
departure G1 M S2 R 400 0
late G1 340 420
work W1 B 500 600
"""
# The keys of `figures` that are nothing in the run of LATE, in the order in which they are written.
NO_REFUSALS = b"".join(
    b"refused %s 0\n" % it
    for it in (
        b"bad-line in-force unknown-class unknown-node wrong-kind unknown-segment not-in-force not-routed not-arrival already-done "
        b"already-moving full"
    ).split()
    + [b"step class-barred", b"step bad-turn", b"step too-fast", b"step past-horizon", b"step taken", b"not-moving", b"not-late", b"past-end"]
)


class Runs(programs.ProgramTest):
    crate = "taxi_tools"

    def expect_text(self, words, airport, commands, text):
        self.expect(words, {"airport.csv": airport, "commands.txt": commands}, Status.DONE, text)

    def test_the_plan_of_late_flights(self):
        text = b"""name,kind,class,from,to,step,segment,direction,tail,head,enter,leave,until,least,wait,slack
F1,arrival,M,R,S1,1,A,forward,R,J,100,200,210,30,70,210
F1,arrival,M,R,S1,2,B,forward,J,S1,200,220,230,20,0,270
G1,filed,M,S2,R,1,D,backward,S2,K,330,420,430,15,75,3180
G1,filed,M,S2,R,2,C,backward,K,J,420,445,455,25,0,3155
G1,filed,M,S2,R,3,A,backward,J,R,445,475,485,30,0,3125
W1,work,,J,S1,1,B,,J,S1,500,600,600,100,0,3000
"""
        self.expect_text("plan airport.csv commands.txt", WITH_CLEARANCE, LATE, text)

    def test_the_plan_by_civil_times(self):
        text = b"""name,kind,class,from,to,step,segment,direction,tail,head,enter,leave,until,least,wait,slack
X1,filed,M,R,J,1,A,forward,R,J,2024-02-29T00:00:10-00:30,2024-02-29T00:01:10-00:30,2024-02-29T00:01:10-00:30,30,30,3440
"""
        self.expect_text("plan airport.csv commands.txt 2024-02-28T23:58:30-00:30", SMALL, b"file X1 M 100 A+ 160\n", text)

    def test_the_checkpoint_of_late_flights(self):
        text = b"# arrival F1 M R S1 100 0\nfile F1 M 100 A+ 200 B+ 220\nfile G1 M 330 D- 420 C- 445 A- 475\nwork W1 B 500 600\n"
        self.expect_text("checkpoint airport.csv commands.txt", WITH_CLEARANCE, LATE, text)

    def test_the_figures_of_late_flights(self):
        text = b"""commands 6
reply filed 1
reply cancelled 0
reply route 3
reply no-route 0
reply windows 0
reply occupancy 0
reply timetable 0
reply batch 0
reply late 2
reply refused 0
entry route 2
entry no-route 1
entry dropped 0
"""
        text += NO_REFUSALS
        text += b"""parties 1
flights filed M 1
taxied filed M 145
least filed M 70
waited filed M 75
flights arrival M 1
taxied arrival M 120
least arrival M 50
waited arrival M 70
held arrival M 0
flights departure M 0
taxied departure M 0
least departure M 0
waited departure M 0
early departure M 0
busy-seconds A 150
busy-flights A 2
busy-seconds D 100
busy-flights D 1
busy-seconds C 35
busy-flights C 1
busy-seconds B 30
busy-flights B 1
"""
        self.expect_text("figures airport.csv commands.txt", WITH_CLEARANCE, LATE, text)

    def test_the_figures_of_each_reply(self):
        # Counted one by one: 21 commands, whose replies are of every form.
        commands = b"""batch arrival F2 M R S1 100 60 arrival F1 M R S1 100 0
cancel F1
cancel F2
windows A
occupancy A
timetable
arrival F1 M R S1 100 0
arrival F2 M R S1 100 0
file X1 M 160 A+ 190
late F1 110 170
cancel  F1
file F1 M 0 A+ 30
arrival F9 Q R S1 0 0
arrival F9 M R S9 0 0
arrival F9 M S1 R 0 0
windows Z
cancel F9
file X2 M 0 A+ 29
file X2 M 0 A+ 30 A- 60
file X2 M 3590 A+ 3620
file X2 M 90 A+ 120
"""
        counts = {
            b"commands": 21,
            b"reply filed": 1,
            b"reply cancelled": 2,
            b"reply route": 1,
            b"reply no-route": 1,
            b"reply windows": 1,
            b"reply occupancy": 1,
            b"reply timetable": 1,
            b"reply batch": 1,
            b"reply late": 1,
            b"reply refused": 11,
            b"entry route": 3,
            b"entry no-route": 0,
            b"entry dropped": 1,
            b"refused bad-line": 1,
            b"refused in-force": 1,
            b"refused unknown-class": 1,
            b"refused unknown-node": 1,
            b"refused wrong-kind": 1,
            b"refused unknown-segment": 1,
            b"refused not-in-force": 1,
            b"refused not-routed": 0,
            b"refused step class-barred": 0,
            b"refused step bad-turn": 1,
            b"refused step too-fast": 1,
            b"refused step past-horizon": 1,
            b"refused step taken": 1,
            b"parties": 0,
            b"flights filed M": 0,
            b"flights arrival M": 1,
        }
        for program, ran in self.runs("figures airport.csv commands.txt", {"airport.csv": SMALL, "commands.txt": commands}):
            with self.subTest(program=program):
                figures = dict(it.rsplit(b" ", 1) for it in ran.stdout.splitlines())
                self.assertEqual({key: int(figures[key]) for key in counts}, counts)

    def test_the_objects_of_routes_and_of_late_flights(self):
        text = b"""{"command":1,"flight":"F1","labels":[{"arc":"A+","from":0,"until":3600,"value":130}],"line":1,"reply":"route","second":150,\
"steps":[{"arc":"A+","enter":100,"leave":130},{"arc":"B+","enter":130,"leave":150}],"words":["arrival","F1","M","R","S1","100","0"]}
{"command":2,"flight":"F2","labels":[{"arc":"A+","from":140,"until":3600,"value":170}],"line":2,"reply":"route","second":190,\
"steps":[{"arc":"A+","enter":140,"leave":170},{"arc":"B+","enter":170,"leave":190}],"words":["arrival","F2","M","R","S1","100","60"]}
{"command":3,"end":280,"flight":"W1","line":3,"reply":"filed","start":260,"words":["work","W1","A","260","280"]}
{"command":4,"entries":[{"flight":"F1","labels":[{"arc":"A+","from":0,"until":3600,"value":270}],"reply":"route","second":290,\
"steps":[{"arc":"A+","enter":100,"leave":270},{"arc":"B+","enter":270,"leave":290}]},\
{"flight":"F2","labels":[],"reply":"no-route"},{"flight":"W1","reply":"dropped"}],\
"flight":"F1","line":4,"reply":"late","words":["late","F1","110","270"]}
{"done":4}
"""
        commands = b"arrival F1 M R S1 100 0\narrival F2 M R S1 100 60\nwork W1 A 260 280\nlate F1 110 270\n"
        self.expect_text("json airport.csv commands.txt", WITH_CLEARANCE, commands, text)

    def test_the_object_of_a_batch(self):
        text = b"""{"command":1,"entries":[{"flight":"F1","labels":[{"arc":"A+","from":0,"until":3600,"value":130}],"reply":"route","second":150,\
"steps":[{"arc":"A+","enter":100,"leave":130},{"arc":"B+","enter":130,"leave":150}]},\
{"flight":"F2","labels":[{"arc":"A+","from":130,"until":3600,"value":160}],"reply":"route","second":180,\
"steps":[{"arc":"A+","enter":130,"leave":160},{"arc":"B+","enter":160,"leave":180}]}],"line":1,"reply":"batch","total":130,\
"words":["batch","arrival","F2","M","R","S1","100","60","arrival","F1","M","R","S1","100","0"]}
{"done":1}
"""
        commands = b"batch arrival F2 M R S1 100 60 arrival F1 M R S1 100 0\n"
        self.expect_text("json airport.csv commands.txt", SMALL, commands, text)

    def test_the_objects_of_reports(self):
        commands = b"# a comment\n\nfile X1 M 0 A+ 30\nwindows A\noccupancy C\ntimetable\ncancel X1\n\xc3\xa9\"\t\n"
        text = """{"command":1,"end":30,"flight":"X1","line":3,"reply":"filed","start":0,"words":["file","X1","M","0","A+","30"]}
{"command":2,"line":4,"reply":"windows","segment":"A","windows":[{"from":30,"until":3600}],"words":["windows","A"]}
{"command":3,"held":[{"flight":"X1","from":0,"segment":"A","until":30}],"line":5,"reply":"occupancy","segment":"C","words":["occupancy","C"]}
{"command":4,"flights":[{"class":"M","end":30,"flight":"X1","kind":"filed","start":0}],"line":6,"reply":"timetable","words":["timetable"]}
{"command":5,"flight":"X1","line":7,"reply":"cancelled","words":["cancel","X1"]}
{"command":6,"line":8,"reply":"refused","why":"bad-line","words":["\u00c3\u00a9\\"\\t"]}
{"done":6}
"""
        self.expect_text("json airport.csv commands.txt", SMALL, commands, text.encode())

    def test_the_objects_of_refusals(self):
        commands = b"""arrival F1 M R S1 100 0
departure G1 M S2 R 400 0
reroute G1 330
reroute F1 150
late F1 50 200
late F1 110 130
late F1 110 3601
file X1 M 90 A+ 125
file X1 M 0 A+ 29
divert G1 1 S1
work W1 A 9 9
"""
        text = b"""{"command":3,"line":3,"reply":"refused","start":330,"why":"already-moving","words":["reroute","G1","330"]}
{"command":4,"end":150,"line":4,"reply":"refused","why":"already-done","words":["reroute","F1","150"]}
{"command":5,"line":5,"reply":"refused","start":100,"why":"not-moving","words":["late","F1","50","200"]}
{"command":6,"leave":130,"line":6,"reply":"refused","why":"not-late","words":["late","F1","110","130"]}
{"command":7,"horizon":3600,"line":7,"reply":"refused","why":"past-end","words":["late","F1","110","3601"]}
{"at":100,"by":"F1","cause":"taken","command":8,"line":8,"reply":"refused","step":1,"why":"step","words":["file","X1","M","90","A+","125"]}
{"cause":"too-fast","command":9,"line":9,"reply":"refused","step":1,"why":"step","words":["file","X1","M","0","A+","29"]}
{"command":10,"line":10,"reply":"refused","why":"not-arrival","words":["divert","G1","1","S1"]}
{"cause":"too-fast","command":11,"line":11,"reply":"refused","step":1,"why":"step","words":["work","W1","A","9","9"]}
{"done":11}
"""
        for program, ran in self.runs("json airport.csv commands.txt", {"airport.csv": SMALL, "commands.txt": commands}):
            with self.subTest(program=program):
                self.assertEqual(ran.stdout.split(b"\n", 2)[2], text)


if __name__ == "__main__":
    unittest.main()
