"""Packages made of the built programs, unpacked and called with no toolchain on the PATH. bench/packages installs them too.

The gate builds no library, so that of python/tests takes its place. It is loaded and closed, and its answers say nothing.
"""

import os
import shutil
import subprocess
import sys
import tempfile
import unittest
import zipfile

from programs import TOP, builds_of

STAND_IN = f"{TOP}/python/tests/stand_in.c"
NEEDED = ("cc", "ar", "readelf", "dpkg-deb", "tar")
LAKE = f"{TOP}/examples/lakeside"
DAY = (f"{LAKE}/airport.csv", f"{LAKE}/commands.txt")


def read(path):
    with open(path, "rb") as file:
        return file.read()


@unittest.skipUnless(all(map(shutil.which, NEEDED)), f"one of {', '.join(NEEDED)} is missing")
class Packages(unittest.TestCase):
    """The packages of one call of ./package, each unpacked in a folder of its own."""

    @classmethod
    def setUpClass(cls):
        room = tempfile.TemporaryDirectory()
        cls.addClassCleanup(room.cleanup)
        cls.room, cls.out = room.name, f"{room.name}/out"
        given = f"{room.name}/given"
        os.makedirs(given)
        for name, crate in (("taxi", "taxi_cli"), ("taxi-tools", "taxi_tools")):
            found = builds_of(crate)
            assert found, f"{crate} is not built: rt ci builds it"
            shutil.copy2(found[0], f"{given}/{name}")
        words = ["cc", "-std=c11", "-D_GNU_SOURCE", "-fPIC", f"-I{TOP}/include", "-c", STAND_IN, "-o", f"{room.name}/library.o"]
        subprocess.run(words, check=True)
        subprocess.run(["ar", "rcD", f"{given}/librusboqan.a", f"{room.name}/library.o"], check=True)
        subprocess.run([sys.executable, f"{TOP}/package", "--programs", given, cls.out], stdout=subprocess.DEVNULL, check=True)

    def package(self, end):
        return next(f"{self.out}/{it}" for it in os.listdir(self.out) if it.endswith(end))

    def call(self, *words, **more):
        """What a call writes, with a bare PATH and HOME and no other variable but those that are given."""
        bare = {"PATH": "/usr/bin:/bin", "HOME": self.room, **more}
        ran = subprocess.run(words, capture_output=True, env=bare, cwd=self.room, timeout=120, check=False)
        self.assertEqual((ran.returncode, ran.stderr), (0, b""), words)
        return ran.stdout

    def try_programs(self, taxi, tools):
        """The example of README, a check, and the plan of a day."""
        self.assertEqual(self.call(taxi, "route", DAY[0], f"{LAKE}/quick.txt").splitlines()[0], b"route SWR101 120 4 4")
        with open(f"{self.room}/transcript.txt", "wb") as out:
            out.write(self.call(taxi, "route", *DAY))
        self.assertEqual(self.call(taxi, "check", *DAY, f"{self.room}/transcript.txt"), b"ok 21\n")
        self.assertEqual(self.call(tools, "plan", *DAY), read(f"{LAKE}/plan.csv"))
        self.assertIn(b"taxi-tools checkpoint", self.call(tools, "--help"))

    def test_the_tar(self):
        self.call("tar", "xzf", self.package(".tar.gz"), "-C", self.room)
        top = self.package(".tar.gz").replace(self.out, self.room).removesuffix(".tar.gz")
        self.try_programs(f"{top}/taxi", f"{top}/bin/taxi-tools")
        page = self.call(sys.executable, f"{top}/tools/day_page", *DAY, "--map", f"{LAKE}/map.geojson")
        self.assertIn(b'"text":"ok 21"', page.replace(b": ", b":"))
        known = self.call(sys.executable, "-c", "import rusboqan; print(rusboqan.version())", PYTHONPATH=f"{top}/python")
        self.assertRegex(known, rb"^\d+\.\d+\.\d+\n$")

    def test_the_debian_package(self):
        self.call("dpkg-deb", "-x", self.package(".deb"), f"{self.room}/deb")
        self.try_programs(f"{self.room}/deb/usr/bin/taxi", f"{self.room}/deb/usr/bin/taxi-tools")
        self.call(sys.executable, f"{self.room}/deb/usr/lib/rusboqan/tools/day_page", *DAY)

    def test_the_wheel(self):
        with zipfile.ZipFile(self.package(".whl")) as file:
            for member in file.infolist():
                os.chmod(file.extract(member, f"{self.room}/wheel"), member.external_attr >> 16)
        run = "from rusboqan.programs import taxi; taxi()"
        answer = self.call(sys.executable, "-c", run, "route", *DAY, PYTHONPATH=f"{self.room}/wheel")
        self.assertEqual(answer.splitlines()[-1], b"done 21")
        programs = f"{self.room}/wheel/rusboqan/programs"
        self.try_programs(f"{programs}/taxi", f"{programs}/taxi-tools")


if __name__ == "__main__":
    unittest.main()
