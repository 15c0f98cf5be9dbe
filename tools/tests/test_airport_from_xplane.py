"""Tests of tools/airport_from_xplane on small airports by hand. On the equator a thousandth of a degree is 111.319 m to the
east and 110.574 m to the north."""
import contextlib
import gzip
import io
import json
import os
import subprocess
import sys
import tempfile
import unittest

sys.dont_write_bytecode = True
TOOLS = os.path.dirname(os.path.dirname(os.path.abspath(__file__)))
sys.path.insert(0, TOOLS)

from ground_network.main import main  # noqa: E402
from ground_network.names import Names, name_of  # noqa: E402
from ground_network.plane import Projection, gap, turn_angle  # noqa: E402

# A runway of 1113 m to the east; node 1 is on it, 2 to 4 lie 110.6 m south of it, 222.6 m from each other.
AIRPORT = """I
1000 Version - by hand

1 100 0 0 HAND By Hand
100 40.00 1 0 0.00 0 0 0 09 0.0 0.0 0 0 0 0 0 0 27 0.0 0.010 0 0 0 0 0 0
1200
1201 0.000 0.005 both 1 node
1201 -0.001 0.005 both 2 node
1201 -0.001 0.007 both 3 node
1201 -0.001 0.003 both 4 node
1202 1 2 twoway taxiway *
1202 2 3 twoway taxiway B
1202 4 2 oneway taxiway *
1202 2 4 oneway taxiway *
1300 -0.00101 0.00701 0.0 gate jets|heavy Gate 7
1300 -0.0015 0.004 0.0 tie_down props Ramp (\u00d6st)
99
"""


def run(text, *options, name="airport.dat"):
    """The status, the rows of the airport file, and what is told, of a run on a text or bytes."""
    with tempfile.TemporaryDirectory() as folder:
        path = os.path.join(folder, name)
        with open(path, "wb") as stream:
            stream.write(text if isinstance(text, bytes) else text.encode())
        told = [option.replace("FOLDER", folder) for option in options]
        out, err = io.StringIO(), io.StringIO()
        with contextlib.redirect_stdout(out), contextlib.redirect_stderr(err):
            status = main([path, *told])
        made_map, runways = (json_of(os.path.join(folder, name)) for name in ("map", "runways"))
        return Made(status, out.getvalue(), err.getvalue(), made_map, runways)


def json_of(path):
    """What a JSON file says, or None where there is none."""
    if not os.path.exists(path):
        return None
    with open(path) as stream:
        return json.load(stream)


class Made:
    def __init__(self, status, out, told, made_map, runways=None):
        self.status, self.out, self.told, self.map, self.runways = status, out, told, made_map, runways
        self.rows = [line.split(",") for line in out.splitlines()]

    def of(self, word):
        return [row[1:] for row in self.rows if row[0] == word]

    def conflict(self, first, second):
        return any(first in row and second in row for row in self.of("conflict"))

    def seconds(self, name):
        return {class_name: int(count) for segment, class_name, count in self.of("seconds") if segment == name}


def drawing(*lines):
    return "\n".join(["taxi-drawing,1", *lines]) + "\n"


# A runway of 2 km with a taxiway down to a crossing, and a stand below it; the rest of a drawing comes behind.
GROUND = ("runway,09/27,40,0,0,2000,0", "node,R,1000,0", "node,M,1000,-100", "taxiway,N,both,R,M", "stand,S,1000,-160,all")


class OnXPlane(unittest.TestCase):
    def setUp(self):
        self.made = run(AIRPORT, "--map", "FOLDER/map", "--version", "2")

    def test_nodes(self):
        self.assertEqual(self.made.status, 0, self.made.told)
        nodes = self.made.of("node")
        self.assertEqual(nodes[0], ["09/27.1", "runway"])
        self.assertIn(["J2", "junction"], nodes)
        # Gate 7 lies 1.6 m from the dead end 3, so the node is the stand.
        self.assertIn(["Gate_7", "stand"], nodes)
        self.assertNotIn(["J3", "junction"], nodes)
        self.assertIn(["Ramp_Ost", "stand"], nodes)

    def test_segments(self):
        segments = {row[0]: row[1:] for row in self.made.of("segment")}
        self.assertEqual(segments["T1-2"], ["09/27.1", "J2", "both"])
        # 222.6 m, where three meet at one end alone: 40 m and the rest.
        self.assertEqual(segments["B.1"], ["J2", "X-B.1", "both"])
        self.assertEqual(segments["B.2"], ["X-B.1", "X-B.2", "both"])
        # The last 10 m to a stand are a piece of their own.
        self.assertEqual(segments["S-Gate_7"], ["X-B.2", "Gate_7", "both"])
        # Two one-way edges between the same nodes are one both ways, cut where the lead-in meets.
        self.assertEqual(segments["T4-2.1"], ["J4", "J-Ramp_Ost", "both"])
        self.assertEqual(segments["L-Ramp_Ost"], ["J-Ramp_Ost", "X-L-Ramp_Ost", "both"])
        self.assertEqual(segments["S-Ramp_Ost"], ["X-L-Ramp_Ost", "Ramp_Ost", "both"])

    def test_seconds(self):
        # 110.6 m at 8 and 7 m/s; 172.6 m and 10 m at 3 and 2.5 m/s, for heavy and jets; 45.3 m and 10 m at 3 m/s, for props.
        self.assertEqual(self.made.seconds("T1-2"), {"L": 14, "M": 14, "H": 16})
        self.assertEqual(self.made.seconds("B.2"), {"M": 58, "H": 70})
        self.assertEqual(self.made.seconds("S-Gate_7"), {"M": 4, "H": 4})
        self.assertEqual(self.made.seconds("L-Ramp_Ost"), {"L": 16})
        self.assertEqual(self.made.seconds("S-Ramp_Ost"), {"L": 4})

    def test_versions(self):
        self.assertEqual(self.made.rows[:2], [["taxi-airport", "2"], ["horizon", "86400"]])
        self.assertEqual(self.made.of("clearance"), [["L", "5"], ["M", "8"], ["H", "15"]])
        first = run(AIRPORT, "--horizon", "3600")
        self.assertEqual(first.rows[:2], [["taxi-airport", "1"], ["horizon", "3600"]])
        self.assertEqual(first.of("clearance"), [])
        self.assertEqual(first.rows[2:], [row for row in self.made.rows[2:] if row[0] != "clearance"])

    def test_map(self):
        features = self.made.map["features"]
        lines = {f["properties"]["name"]: f for f in features if f["properties"]["kind"] == "segment"}
        points = {f["properties"]["name"]: f for f in features if f["geometry"]["type"] == "Point"}
        self.assertEqual(set(lines), {row[0] for row in self.made.of("segment")})
        self.assertEqual({(name, f["properties"]["kind"]) for name, f in points.items()}, {tuple(row) for row in self.made.of("node")})
        self.assertEqual(points["J4"]["geometry"]["coordinates"], [0.003, -0.001])
        self.assertEqual(lines["T1-2"]["geometry"]["coordinates"], [[0.005, 0.0], [0.005, -0.001]])
        self.assertEqual(lines["T1-2"]["properties"]["metres"], 110.6)

    def test_same_bytes(self):
        with tempfile.NamedTemporaryFile("w", suffix=".dat", encoding="utf-8") as stream:
            stream.write(AIRPORT)
            stream.flush()
            words = [sys.executable, os.path.join(TOOLS, "airport_from_xplane"), stream.name, "--version", "2"]
            runs = [subprocess.run(words, capture_output=True, env={**os.environ, "PYTHONHASHSEED": seed}) for seed in "12"]
        self.assertEqual(runs[0].stdout, runs[1].stdout)
        self.assertEqual(runs[0].stdout.decode(), self.made.out)


class Files(unittest.TestCase):
    def refuses(self, text, status, told, *options):
        made = run(text, *options)
        self.assertEqual((made.status, made.out), (status, ""))
        self.assertIn(told, made.told)

    def test_what_is_no_airport(self):
        self.refuses("", 3, "isn't a file of X-Plane's airports")
        self.refuses("node,A,runway\n", 3, "isn't a file of X-Plane's airports")
        self.refuses(b"\x00\xff\n\xfe" * 99, 3, "isn't a file of X-Plane's airports")
        self.refuses("I\n810 Version\n", 2, "format 810")
        self.refuses("I\n1000 Version\n99\n", 2, "no airport")
        self.refuses(gzip.compress(AIRPORT.encode())[:200], 3, "cut short or damaged")
        self.assertEqual(main_on("/nowhere/apt.dat"), 3)
        self.assertEqual(main_on(TOOLS), 3)

    def test_what_lacks_something(self):
        self.refuses(without(AIRPORT, "1201", "1202"), 2, "no ground network")
        self.refuses(without(AIRPORT, "1202"), 2, "no ground network")
        self.refuses(without(AIRPORT, "100"), 2, "on a runway")
        self.refuses(without(AIRPORT, "1202 1"), 2, "no taxiway that leads from a runway node and to one")

    def test_packed_and_carriage_returns(self):
        whole = run(AIRPORT).out
        self.assertEqual(run(gzip.compress(AIRPORT.encode())).out, whole)
        self.assertEqual(run(AIRPORT.replace("\n", "\r\n")).out, whole)

    def test_rows_that_are_short_or_unknown(self):
        made = run(AIRPORT.replace("1201 -0.001 0.003 both 4 node", "1201 -0.001 0.003\n1999 x").replace("99\n", "", 1))
        self.assertEqual(made.status, 0)
        self.assertIn("row 1201 in line 10", made.told)
        self.assertIn("ignored 1 row of types that aren't used: type 1999 (1 row)", made.told)
        self.assertIn("left out, edges (2), an end is no node: 4-2, 2-4", made.told)

    def test_a_file_that_is_cut(self):
        made = run(AIRPORT[: AIRPORT.rindex("99")])
        self.assertEqual(made.status, 0)
        self.assertIn("it may be cut short", made.told)

    def test_one_of_many(self):
        two = AIRPORT[:-3] + AIRPORT[AIRPORT.index("1 100"):].replace("HAND", "TWIN").replace("Gate 7", "Gate 8")
        self.refuses(two, 2, "2 airports (HAND, TWIN)")
        self.refuses(two, 2, "no airport LSZH", "LSZH")
        self.assertIn("node,Gate_8,stand", run(two, "twin").out)
        self.assertEqual(run(two, "hand").out, run(AIRPORT).out)
        self.assertEqual(run(two, "--list").out.split("\n")[1], "TWIN 4 nodes 4 edges 2 startup locations By Hand")

    def test_wrong_words(self):
        for words in (["--version", "3"], ["--horizon", "0"], ["--class", "M:speed=0"], ["--class", "M:wings=2"], ["--class", "a b"], ["--nothing"]):
            made = run(AIRPORT, *words)
            self.assertEqual((made.status, made.out), (1, ""), words)

    def test_a_map_that_cannot_be_written(self):
        self.refuses(AIRPORT, 4, "can't be written", "--map", "FOLDER/none/map")


class Stands(unittest.TestCase):
    def test_kinds_and_sizes(self):
        def classes(kinds, size):
            made = run(AIRPORT.replace("jets|heavy Gate 7", f"{kinds} Gate 7\n1301 {size} airline"))
            return "".join(made.seconds("B.2"))

        self.assertEqual(classes("all", "none"), "LMH")
        self.assertEqual(classes("all", "C"), "LM")
        self.assertEqual(classes("turboprops", "F"), "LM")
        self.assertEqual(classes("heavy|jets", "D"), "M")
        # A size for none of the kinds: the kinds count.
        self.assertEqual(classes("heavy", "A"), "H")

    def test_sizes_of_taxiways(self):
        made = run(AIRPORT.replace("twoway taxiway B", "twoway taxiway_C B").replace("jets|heavy Gate 7", "all Gate 7"))
        self.assertEqual(list(made.seconds("B.1")), ["L", "M"])
        self.assertEqual(list(made.seconds("B.2")), ["L", "M"])
        # Heavy aircraft alone may use the stand, and can't come to it.
        made = run(AIRPORT.replace("twoway taxiway B", "twoway taxiway_C B").replace("jets|heavy Gate 7", "heavy Gate 7"), "--lead-in", "200")
        self.assertIn("no taxiway within 200 m: Gate 7", made.told)

    def test_classes_as_given(self):
        made = run(AIRPORT, "--class", "M:speed=10:clearance=0", "--class", "H2:size=F:kinds=jets+heavy:lead=1", "--version", "2")
        self.assertEqual(made.of("class"), [["M"], ["H2"]])
        self.assertEqual(made.of("clearance"), [["H2", "8"]])
        # 110.6 m at 10 and 8 m/s, 172.6 m and 10 m at 3 and 1 m/s.
        self.assertEqual(made.seconds("T1-2"), {"M": 12, "H2": 14})
        self.assertEqual(made.seconds("B.2"), {"M": 58, "H2": 173})
        self.assertEqual(made.seconds("S-Gate_7"), {"M": 4, "H2": 10})
        self.assertIn("no class may use them: Ramp (\u00d6st)", made.told)

    def test_what_is_left_out_is_named(self):
        rows = ["1300 -0.0012 0.006 0 misc helos Heli", "1300 -0.02 0.005 0 misc all Far Away", "1300 0.0 0.002 0 misc all Threshold"]
        made = run(AIRPORT.replace("99\n", "\n".join(rows) + "\n99\n"))
        self.assertIn("no class may use them: Heli", made.told)
        self.assertIn("no taxiway within 250 m: Far Away", made.told)
        self.assertIn("on a runway: Threshold", made.told)
        self.assertEqual(sum(kind == "stand" for _, kind in made.of("node")), 2)

    def test_older_rows(self):
        """An older row counts beside newer ones, unless it is 11.1 m from one."""
        older = AIRPORT.replace("1300 -0.0015 0.004 0.0 tie_down props Ramp (\u00d6st)", "15 -0.0015 0.004 0.0 Old\n15 -0.00101 0.00711 0.0 Again")
        made = run(older)
        self.assertEqual([row for row in made.of("node") if row[1] == "stand"], [["Gate_7", "stand"], ["Old", "stand"]])
        told = "took 1 older startup location (type 15) beside 1 newer (type 1300); within 15 m of a newer one: Again"
        self.assertIn(told, made.told)
        self.assertIn(["Old", "stand"], run(without(older, "1300")).of("node"))
        ends = run(without(AIRPORT, "1300"))
        self.assertIn("no startup location", ends.told)
        self.assertEqual([row for row in ends.of("node") if row[1] == "stand"], [["S3", "stand"], ["S4", "stand"]])

    def test_places_of_lead_ins(self):
        made = run(drawing(*GROUND, "node,W,600,-100", "taxiway,A,both,W,M", "stand,E,985,-50,all", "stand,P,800,-50,M", "stand,Q,810,-170,M"))
        segments = {row[0]: row[1] for row in made.of("segment")}
        # E is 15 m from the taxiway N in its middle; P and Q meet A 10 m from each other, so at one place.
        self.assertEqual(segments["L-E"], "J-E")
        self.assertEqual((segments["L-P"], segments["L-Q"]), ("J-P", "J-P"))
        self.assertEqual(segments["L-S"], "M")
        # The place is 805, so P's lead-in has the square root of 50 * 50 + 5 * 5, which is 50.2 m, at 3 m/s; 10 m are its stand's.
        self.assertEqual(made.seconds("L-P"), {"M": 14})
        self.assertEqual(made.seconds("S-P"), {"M": 4})
        self.assertEqual((segments["S-P"], segments["S-S"]), ("X-L-P", "X-L-S"))

    def test_a_stand_near_its_taxiway(self):
        """A lead-in of 12 m: half of it is the stand's."""
        made = run(drawing(*GROUND, "stand,T,1012,-100,M"))
        self.assertEqual(made.seconds("L-T"), {"M": 2})
        self.assertEqual(made.seconds("S-T"), {"M": 2})
        self.assertEqual(run(drawing(*GROUND, "stand,T,1012,-100,M"), "--place", "3").seconds("L-T"), {"M": 3})

    def test_pushback(self):
        """A departure takes 60 s more on its stand's piece and on the lead-in before it."""
        made = run(drawing(*GROUND), "--pushback", "60", "--version", "2", "--class", "M")
        self.assertEqual(made.of("class"), [["M"], ["M-PUSH"]])
        self.assertEqual(made.of("clearance"), [["M", "8"], ["M-PUSH", "8"]])
        # 50 m and 10 m at 3 m/s, 100 m at 8 m/s.
        self.assertEqual(made.seconds("S-S"), {"M": 4, "M-PUSH": 64})
        self.assertEqual(made.seconds("L-S"), {"M": 17, "M-PUSH": 77})
        self.assertEqual(made.seconds("N"), {"M": 13, "M-PUSH": 13})
        self.assertIn("classes for departures with 60 s of pushback: M-PUSH", made.told)
        self.assertEqual(run(drawing(*GROUND), "--pushback", "60", "--class", "ABCDEFGHIJKL").status, 1)

    def test_a_default_class_that_no_stand_takes(self):
        text = AIRPORT.replace("jets|heavy Gate 7", "jets Gate 7")
        made = run(text)
        self.assertEqual(made.of("class"), [["L"], ["M"]])
        self.assertIn("left out the default class H, which no stand takes", made.told)
        asked = run(text, "--class", "M", "--class", "H")
        self.assertEqual(asked.of("class"), [["M"], ["H"]])
        self.assertIn("warning: no stand takes class H", asked.told)

    def test_long_names(self):
        made = run(drawing(*GROUND, "stand,North_Ra_Helipad,900,-100,M"))
        self.assertIn("segments of the stand North_Ra_Helipad: L-North_Ra_Helip, S-North_Ra_Helip\n", made.told)
        self.assertNotIn("segments of the stand S:", made.told)


class Networks(unittest.TestCase):
    def test_pavement(self):
        """Half of 40 m and 5 m: 24.9 m beside the centre line is on the runway, 25.1 m is not."""
        made = run(drawing("runway,09/27,40,0,0,2000,0", "node,A,1000,-24.9", "node,B,1000,25.1", "node,C,1000,-200", "taxiway,N,both,B,A,C", "stand,S,1000,-201,all"))
        self.assertEqual(dict(made.of("node"))["A"], "runway")
        self.assertEqual(dict(made.of("node"))["B"], "junction")

    def metres(self, length, *options):
        """The lengths of the pieces of an edge between two crossings."""
        made = run(drawing(*GROUND, f"node,F,{1000 + length},-100", f"node,G,{1000 + length},-180", f"node,H,{1040 + length},-180",
                           "taxiway,A,both,M,F", "taxiway,B,both,F,G", "taxiway,C,both,F,H"), "--map", "FOLDER/map", *options)
        told = [f["properties"] for f in made.map["features"]]
        return [p["metres"] for p in told if p["name"] == "A" or p["name"].startswith("A.")]

    def test_cuts(self):
        self.assertEqual(self.metres(119), [119])
        self.assertEqual(self.metres(120), [40, 40, 40])
        self.assertEqual(self.metres(330), [40, 250, 40])
        self.assertEqual(self.metres(400), [40, 160, 160, 40])
        self.assertEqual(self.metres(400, "--stub", "50", "--piece", "100"), [50, 100, 100, 100, 50])
        self.assertEqual(self.metres(400, "--cut-from", "500"), [400])
        # No room for two cuts of 70 m.
        self.assertEqual(self.metres(139, "--stub", "70"), [139])

    def test_runway_edges(self):
        """Of the edges R1-R2 and R2-R3 along the runway the second alone joins what lies beyond R3; R4 has no taxiway."""
        text = AIRPORT.replace("1202 1 2", "\n".join([
            "1201 0.0 0.003 both 11 n", "1201 0.0 0.001 both 12 n", "1201 0.0 0.0005 both 13 n", "1201 0.0015 0.001 both 14 n",
            "1202 1 11 twoway runway *", "1202 11 12 twoway runway *", "1202 12 13 twoway runway *", "1202 11 4 twoway taxiway *",
            "1202 12 14 twoway taxiway *", "1202 1 2"]))
        made = run(text)
        self.assertIn("left out, edges along a runway (2)", made.told)
        self.assertIn("which have no taxiway: 13", made.told)
        names = [row[0] for row in made.of("segment")]
        self.assertEqual([row for row in made.of("segment") if row[0].startswith("R-")], [["R-09/27-1", "09/27.2", "09/27.1", "both"]])
        self.assertFalse(any(name.startswith(("T1-11", "T12-13", "T11-12")) for name in names))
        kept = run(text, "--keep-runway-edges")
        # From the start on: 12-13 in one piece, 11-12 cut at both ends, 1-11 cut at 11, where three meet.
        along = {row[0]: row[1:3] for row in kept.of("segment") if row[0].startswith("R-")}
        self.assertEqual(sorted(along), [f"R-09/27-{number}" for number in range(1, 7)])
        self.assertEqual(along["R-09/27-1"], ["09/27.2", "09/27.1"])
        self.assertEqual(along["R-09/27-6"][0], "09/27.4")

    def test_runways_beside_the_airport_file(self):
        """A runs across the runway with no node on it; N begins on it; the edge from R to P lies along it."""
        lines = ("node,P,1300,0", "node,V,500,-300", "node,W,500,300", "taxiway,T,both,R,P", "taxiway,Z,both,P,M", "taxiway,A,both,M,V,W")
        options = ("--keep-runway-edges", "--cut-from", "5000", "--runways", "FOLDER/runways", "--map", "FOLDER/map")
        made = run(drawing(*GROUND, *lines, "stand,S2,500,310,all"), *options)
        self.assertEqual(made.status, 0, made.told)
        runway = made.map["features"][0]
        self.assertEqual((runway["properties"]["kind"], runway["properties"]["name"], runway["properties"]["width"]), ("runway", "09/27", 40.0))
        self.assertEqual(runway["properties"]["segments"], ["R-09/27-1"])
        self.assertEqual(sorted(runway["properties"]["crossings"]), ["A.3", "N", "Z"])
        self.assertEqual(made.runways["runways"][0]["segments"], ["R-09/27-1"])
        self.assertEqual(made.runways["runways"][0]["crossings"], runway["properties"]["crossings"])
        told = {f["properties"]["name"]: f["properties"] for f in made.map["features"][1:]}
        self.assertEqual((told["R-09/27-1"]["runway"], told["A.1"]["taxiway"], "taxiway" in told["L-S"]), ("09/27", "A", False))

    def test_what_is_cut_off(self):
        made = run(AIRPORT.replace("1202 1 2", "1201 -0.004 0.005 both 8 n\n1201 -0.004 0.006 both 9 n\n1202 8 9 twoway taxiway Z\n1202 1 2"))
        self.assertEqual(made.status, 0)
        self.assertIn("nodes (2), to which no runway node leads and back: 8, 9", made.told)
        self.assertNotIn("Z", [row[0] for row in made.of("segment")])

    def test_drawings_that_are_wrong(self):
        for line, told in (("node,R,0,0", "R was given before"), ("node,a b,0,0", "is no name"), ("node,Z,0", "2 fields, not 3"),
                           ("node,Z,x,0", "x is no number"), ("taxiway,A,two,R,M", "neither both nor one"),
                           ("taxiway,A,both,R,Z", "Z is no node"), ("gate,Z,0,0", "gate is none of")):
            made = run(drawing(*GROUND, "# a comment", line))
            self.assertEqual((made.status, made.out), (2, ""), line)
            self.assertIn("line 8: ", made.told)
            self.assertIn(told, made.told)
        self.assertEqual(run("taxi-drawing,2\n").status, 2)

    def test_meadow(self):
        """The example is what its drawing comes to."""
        folder = os.path.join(os.path.dirname(TOOLS), "examples", "meadow")

        def text(name):
            with open(os.path.join(folder, name), encoding="utf-8") as stream:
                return stream.read()

        made = run(text("drawing.csv"), "--version", "2", "--map", "FOLDER/map")
        self.assertEqual(made.out, text("airport.csv"))
        self.assertEqual(made.map, json.loads(text("map.geojson")))

    def test_too_large(self):
        far = [f"node,N{k},{k},-100" for k in range(1001, 11_500)]
        chain = [f"taxiway,A,both,N{k},N{k + 1}" for k in range(1001, 11_499)]
        made = run(drawing(*GROUND, *far, "taxiway,A,both,M,N1001", *chain))
        self.assertEqual((made.status, made.out), (2, ""))
        self.assertIn("10500 segments of at most 10000", made.told)

    def test_coarser_where_it_would_be_too_large(self):
        far = [f"node,N{k},{1000 + 900 * k},-100" for k in range(1, 21)]
        made = run(drawing(*GROUND, *far, "taxiway,A,both,M," + ",".join(f"N{k}" for k in range(1, 21))), "--piece", "20", "--cut-from", "20")
        self.assertEqual(made.status, 0)
        self.assertLessEqual(len(made.of("segment")), 10_000)


def without(text, *starts):
    """A file with no rows that begin with one of some words."""
    return "\n".join(line for line in text.split("\n") if not any((line + " ").startswith(start + " ") for start in starts))


def main_on(path):
    with contextlib.redirect_stderr(io.StringIO()):
        return main([path])


class Conflicts(unittest.TestCase):
    def test_pieces_at_a_node(self):
        made = run(drawing(*GROUND))
        self.assertTrue(made.conflict("N", "L-S"))

    def test_the_piece_at_a_stand(self):
        """Two stands 20 m apart: their lead-ins conflict, the pieces at the stands with nothing but the own lead-in."""
        made = run(drawing(*GROUND, "stand,S2,1020,-160,all"))
        self.assertTrue(made.conflict("L-S", "L-S2"))
        self.assertTrue(made.conflict("L-S", "S-S"))
        for other in ("L-S2", "S-S2", "N"):
            self.assertFalse(made.conflict("S-S", other), other)

    def test_wing_span(self):
        """Two stands side by side, their lead-ins on two taxiways that share no node."""
        for apart, is_close in ((35, True), (37, False)):
            lines = [f"node,R2,{1000 + apart},0", f"node,M2,{1000 + apart},-100", "taxiway,O,both,R2,M2", f"stand,S2,{1000 + apart},-160,all"]
            made = run(drawing(*GROUND, *lines))
            self.assertEqual(made.conflict("N", "O"), is_close, apart)
            self.assertFalse(run(drawing(*GROUND, *lines), "--span", "30").conflict("N", "O"))

    def test_small_classes(self):
        """Where light aircraft of 24 m alone go, 30 m are enough."""
        places = {"L1": 600, "L2": 630, "M1": 700, "M2": 730}
        stands = [f"stand,{name},{x},-350,{name[0]}" for name, x in places.items()]
        made = run(drawing(*GROUND, "node,V,900,-300", "node,W,500,-300", "taxiway,A,both,M,V,W", *stands))
        self.assertTrue(made.conflict("L-M1", "L-M2"))
        self.assertFalse(made.conflict("L-L1", "L-L2"))

    def test_crossing(self):
        lines = ("node,W,900,-50", "node,E,1100,-50", "node,X,900,0", "taxiway,A,both,X,W,E", "stand,S2,1101,-50,all")
        self.assertTrue(run(drawing(*GROUND, *lines), "--span", "0", "--cut-from", "1000").conflict("A.2", "N"))

    def test_many_at_one_node(self):
        """Thirty lead-ins at one node: sets of at most 16, and each pair in one of them."""
        made = run(drawing(*GROUND, *(f"stand,P{k},{1000 + k},-190,all" for k in range(30))))
        self.assertTrue(all(len(row) <= 16 for row in made.of("conflict")))
        names = ["N"] + [f"L-P{k}" for k in range(30)]
        self.assertTrue(all(made.conflict(a, b) for a in names for b in names if a < b))
        more = run(drawing(*GROUND, *(f"stand,P{k},{1000 + k},-190,all" for k in range(40))))
        self.assertEqual(more.status, 0)


class Turns(unittest.TestCase):
    def test_sharp_turns(self):
        """B joins A backward: from B to the part of A that leads to M the heading changes by 153 degrees."""
        lines = ("node,E,1300,-100", "node,F,1500,-100", "node,B,1100,0", "taxiway,A,both,M,E,F", "taxiway,B,both,B,E")
        made = run(drawing(*GROUND, *lines), "--cut-from", "5000")
        # From B to the stand S there is no other way.
        self.assertEqual(made.of("forbid"), [])
        self.assertIn("kept 2 sharp turns or turns through a stand that some class needs to reach a stand or to leave it", made.told)
        loop = ("node,G,1500,-300", "node,H,900,-300", "node,I,900,-100", "taxiway,C,both,F,G,H,I,M")
        made = run(drawing(*GROUND, *lines, *loop), "--cut-from", "5000")
        self.assertEqual(made.of("forbid"), [["A.1+", "B-"], ["B+", "A.1-"]])
        self.assertEqual(run(drawing(*GROUND, *lines, *loop), "--cut-from", "5000", "--sharp", "154").of("forbid"), [])

    def test_through_a_stand(self):
        """A stand on a taxiway beside which there is another: nobody goes through it."""
        lines = ("node,P,1040,-150", "node,Q,1000,-300", "node,O,960,-150", "taxiway,A,both,M,P,Q,O,M", "stand,T,1040,-150,all")
        made = run(drawing(*GROUND, *lines), "--sharp", "180")
        self.assertEqual(sorted(made.of("forbid")), [["S-T.1+", "S-T.2+"], ["S-T.2-", "S-T.1-"]])
        self.assertEqual(dict(made.of("node"))["T"], "stand")


class Parts(unittest.TestCase):
    def test_projection(self):
        east, north = Projection(0, 0).to_plane(0.001, 0.001)
        self.assertAlmostEqual(east, 111.319, 3)
        self.assertAlmostEqual(north, 110.574, 3)
        east, north = Projection(60, 10).to_plane(60.001, 10.001)
        self.assertAlmostEqual(east, 55.800, 3)
        self.assertAlmostEqual(north, 111.412, 3)
        # Across the meridian of 180 degrees.
        self.assertAlmostEqual(Projection(0, 179.9995).to_plane(0, -179.9995)[0], 111.319, 3)
        self.assertAlmostEqual(Projection(0, 179.9995).to_globe((111.319, 0))[1], -179.9995, 6)

    def test_lines(self):
        self.assertEqual(gap((0, 0), (10, 0), (5, -5), (5, 5)), 0)
        self.assertEqual(gap((0, 0), (10, 0), (13, 4), (13, 40)), 5)
        self.assertEqual(gap((0, 0), (10, 0), (0, 7), (10, 7)), 7)
        self.assertAlmostEqual(turn_angle((0, 0), (10, 0), (10, 0), (10, 10)), 90)
        self.assertAlmostEqual(turn_angle((0, 0), (10, 0), (10, 0), (0, 0)), 180)

    def test_names(self):
        self.assertEqual(name_of("GA Ramp (Weyer 2)"), "GA_Ramp_Weyer_2")
        self.assertEqual(name_of("Terminal Two, Gate A12"), "Terminal_Two_A12")
        self.assertEqual(name_of("Mus\u00e9e \u2014 \u98db"), "Musee")
        self.assertEqual(name_of("\u98db *"), "")
        self.assertEqual(name_of("A" * 20), "A" * 16)
        names = Names()
        self.assertEqual([names.take("A" * 16) for _ in range(3)], ["A" * 16, "A" * 14 + ".2", "A" * 14 + ".3"])
        self.assertEqual([names.take(name) for name in ("B", "B.2", "B")], ["B", "B.2", "B.3"])


if __name__ == "__main__":
    unittest.main()
