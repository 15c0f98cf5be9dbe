"""Calls of the router over small airports, for the tests beside this file."""

import programs
from programs import Status

# The records of an airport with one stand, behind the first two.
ONE_STAND = b"""node,R,runway
node,J,junction
node,S1,stand
class,M
segment,A,R,J,both
segment,B,J,S1,both
seconds,A,M,30
seconds,B,M,20
"""
# Two stands behind one runway node. An aircraft on A shuts C.
TWO_STANDS = b"""node,R,runway
node,J,junction
node,K,junction
node,S1,stand
node,S2,stand
class,M
segment,A,R,J,both
segment,B,J,S1,both
segment,C,J,K,both
segment,D,K,S2,both
seconds,A,M,30
seconds,B,M,20
seconds,C,M,25
seconds,D,M,15
conflict,A,C
"""
# One taxiway from a runway node to K, where it parts to two stands, with a way around its second segment. H is too heavy for that.
WAY_AROUND = b"""node,R,runway
node,J,junction
node,K,junction
node,L,junction
node,S1,stand
node,S2,stand
class,M
class,H
segment,A,R,J,both
segment,B,J,K,both
segment,C,K,S1,both
segment,D,J,L,both
segment,E,L,K,both
segment,F,K,S2,both
seconds,A,M,30
seconds,A,H,30
seconds,B,M,20
seconds,B,H,20
seconds,C,M,20
seconds,C,H,20
seconds,D,M,25
seconds,E,M,25
seconds,F,M,20
seconds,F,H,20
"""
# A second runway node beside the two stands, behind K.
SECOND_RUNWAY = b"node,R2,runway\nsegment,E,K,R2,both\nseconds,E,M,40\n"
FIRST_VERSION = b"taxi-airport,1\nhorizon,3600\n"
SECOND_VERSION = b"taxi-airport,2\nhorizon,3600\n"
SMALL = FIRST_VERSION + TWO_STANDS
ROUTE = "route airport.csv commands.txt"
CHECK = "check airport.csv commands.txt transcript.txt"


class RouterTest(programs.ProgramTest):
    crate = "taxi_cli"

    def route(self, airport, commands, text, status=Status.DONE):
        self.expect(ROUTE, {"airport.csv": airport, "commands.txt": commands}, status, text)

    def answers(self, airport, dialogue):
        """The commands of a dialogue, which follow `> `, get the replies behind them, and the check accepts these."""
        lines = dialogue.splitlines(keepends=True)
        commands = [it[2:] for it in lines if it.startswith(b"> ")]
        replies = [it for it in lines if not it.startswith(b"> ")]
        files = {
            "airport.csv": airport,
            "commands.txt": b"".join(commands),
            "transcript.txt": b"".join(replies) + b"done %d\n" % len(commands),
        }
        self.expect(ROUTE, files, Status.DONE, files["transcript.txt"])
        self.expect(CHECK, files, Status.DONE, b"ok %d\n" % len(commands))
