"""A call of each verb of the tools, with what it writes found by hand."""

import unittest

import programs
from programs import Status

AIRPORT = b"""taxi-airport,1
horizon,3600
node,R,runway
node,J,junction
node,S1,stand
class,M
segment,A,R,J,both
segment,B,J,S1,one
seconds,A,M,30
"""
COMMANDS = b"""file X1 M 0 A+ 30
file X2 M 100 A+ 160
work W1 B 0 100
"""


class Verbs(programs.ProgramTest):
    crate = "taxi_tools"

    def expect_text(self, words, text, commands=COMMANDS):
        self.expect(words, {"airport.csv": AIRPORT, "commands.txt": commands}, Status.DONE, text)

    def test_graph(self):
        text = b"""digraph airport {
"R" [shape=box];
"J" [shape=circle];
"S1" [shape=house];
"R" -> "J" [label="A 30", dir=both];
"J" -> "S1" [label="B", style=dotted];
}
"""
        self.expect_text("graph airport.csv", text)

    def test_lint(self):
        text = b"""class M no-arrival
class M no-departure
segment B no-seconds
node R no-arrival
node R no-departure
node S1 no-arrival
node S1 no-departure
arc A+ dead-end
done 8
"""
        self.expect_text("lint airport.csv", text)

    def test_plan(self):
        text = b"""name,kind,class,from,to,step,segment,direction,tail,head,enter,leave,until,least,wait,slack
X1,filed,M,R,J,1,A,forward,R,J,0,30,30,30,0,70
X2,filed,M,R,J,1,A,forward,R,J,100,160,160,30,30,3440
W1,work,,J,S1,1,B,,J,S1,0,100,100,100,0,3500
"""
        self.expect_text("plan airport.csv commands.txt", text)

    def test_figures(self):
        text = b"""commands 3
reply filed 3
reply cancelled 0
reply route 0
reply no-route 0
reply windows 0
reply occupancy 0
reply timetable 0
reply batch 0
reply late 0
reply refused 0
entry route 0
entry no-route 0
entry dropped 0
refused bad-line 0
refused in-force 0
refused unknown-class 0
refused unknown-node 0
refused wrong-kind 0
refused unknown-segment 0
refused not-in-force 0
refused not-routed 0
refused not-arrival 0
refused already-done 0
refused already-moving 0
refused full 0
refused step class-barred 0
refused step bad-turn 0
refused step too-fast 0
refused step past-horizon 0
refused step taken 0
refused not-moving 0
refused not-late 0
refused past-end 0
parties 1
flights filed M 2
taxied filed M 90
least filed M 60
waited filed M 30
flights arrival M 0
taxied arrival M 0
least arrival M 0
waited arrival M 0
held arrival M 0
flights departure M 0
taxied departure M 0
least departure M 0
waited departure M 0
early departure M 0
busy-seconds A 90
busy-flights A 2
"""
        self.expect_text("figures airport.csv commands.txt", text)

    def test_checkpoint(self):
        self.expect_text("checkpoint airport.csv commands.txt", COMMANDS)

    def test_json(self):
        text = b"""{"command":1,"end":30,"flight":"X1","line":1,"reply":"filed","start":0,"words":["file","X1","M","0","A+","30"]}
{"command":2,"end":160,"flight":"X2","line":2,"reply":"filed","start":100,"words":["file","X2","M","100","A+","160"]}
{"command":3,"end":100,"flight":"W1","line":3,"reply":"filed","start":0,"words":["work","W1","B","0","100"]}
{"done":3}
"""
        self.expect_text("json airport.csv commands.txt", text)

    def test_explain(self):
        self.expect_text("explain airport.csv commands.txt 1", b"answer none\nalone none\n", b"arrival F1 M R S1 100 0\n")


if __name__ == "__main__":
    unittest.main()
