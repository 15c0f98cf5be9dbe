"""Tests of ./package and ./install over small files in the programs' place, in a checkout of a few files. The gate's own are bigger."""
import base64
import csv
import hashlib
import io
import os
import re
import shutil
import subprocess
import sys
import tarfile
import tempfile
import unittest
import zipfile

TOP = os.path.dirname(os.path.dirname(os.path.dirname(os.path.abspath(__file__))))
COPIED = ("package", "install", "taxi", "taxi-tools", "tools/launch.sh", "tools/launch_checks.sh", "tools/refused",
          "tools/build_program", "tools/endings.py", "tools/package_parts", "tools/day_replay", "tools/day_page",
          "include", "python/rusboqan", "examples/choice", "README.md", "CHANGELOG.md", "LICENSE-APACHE", "LICENSE-MIT", "docs/INSTALL.md")
with open(f"{TOP}/CHANGELOG.md", encoding="utf-8") as file:
    VERSION = re.search(r"^## (\d+\.\d+\.\d+)", file.read(), re.M)[1]
# 2026-12-02T00:00:00 in UTC.
SECOND = 1796169600
SAID = "rt: ok, 60 crates as before\n212 passed, 0 failed\n"
LIBRARY = """#include <stdint.h>
#include <string.h>
uint32_t rusboqan_version(void) { return 10300; }
uint32_t another(void) { return 1; }
"""
PROGRAM = '#include <stdio.h>\nint main(int count, char **words) { return count > 9 || puts(words[0]) < 0; }\n'
NEEDED = ("cc", "readelf", "ar", "dpkg-deb", "objcopy")


def run(*words, **how):
    return subprocess.run(words, capture_output=True, text=True, check=False, timeout=120, **how)


@unittest.skipUnless(all(map(shutil.which, NEEDED)), f"one of {', '.join(NEEDED)} is missing")
class PackageTest(unittest.TestCase):
    """A checkout without git, and a folder with two programs and a library that a C compiler made."""

    @classmethod
    def setUpClass(cls):
        folder = tempfile.TemporaryDirectory()
        cls.addClassCleanup(folder.cleanup)
        cls.top, cls.programs, cls.path = (f"{folder.name}/{it}" for it in ("checkout", "programs", "path"))
        for name in COPIED:
            place = f"{cls.top}/{name}"
            os.makedirs(os.path.dirname(place), exist_ok=True)
            run("cp", "-r", f"{TOP}/{name}", place)
        for name in ("HANDLES", "crates/one/src/lib.rt", "crates/one/specs/Lib.antt"):
            cls.write(f"{cls.top}/{name}", "")
        cls.write(f"{cls.top}/crates.txt", "one:\ntaxi_cli: one\ntaxi_tools: one\ntaxi_library staticlib: one\n")
        os.makedirs(cls.programs)
        cls.compile(PROGRAM, "-o", f"{cls.programs}/taxi")
        cls.compile(PROGRAM, "-o", f"{cls.programs}/taxi-tools")
        cls.compile(LIBRARY, "-c", "-fPIC", "-o", f"{cls.programs}/one.o")
        run("ar", "rcD", f"{cls.programs}/librusboqan.a", f"{cls.programs}/one.o")

    @staticmethod
    def write(path, text, mode=0o644):
        os.makedirs(os.path.dirname(path), exist_ok=True)
        with open(path, "w", encoding="utf-8") as out:
            out.write(text)
        os.chmod(path, mode)

    @staticmethod
    def compile(text, *words):
        subprocess.run(["cc", "-O1", "-x", "c", "-", *words], input=text, text=True, check=True)

    def setUp(self):
        folder = tempfile.TemporaryDirectory()
        self.addCleanup(folder.cleanup)
        self.out = folder.name

    def call(self, script, *words, path=""):
        environment = {"PATH": path + os.environ["PATH"], "SOURCE_DATE_EPOCH": str(SECOND), "HOME": self.out}
        return run(sys.executable, f"{self.top}/{script}", *words, env=environment)


class Packages(PackageTest):
    def made(self, *words, **how):
        """The bytes of each file that a call writes."""
        ran = self.call("package", *words, self.out, **how)
        self.assertEqual((ran.returncode, ran.stderr), (0, ""))
        self.assertRegex(ran.stdout, r"(?m)^taxi needs libc\.so\.6; its highest symbol version is GLIBC_2\.\d+$")
        found = {}
        for name in sorted(os.listdir(self.out)):
            with open(f"{self.out}/{name}", "rb") as file:
                found[name] = file.read()
        return found

    def test_packages_of_given_programs(self):
        made, again = self.made("--programs", self.programs), self.made("--programs", self.programs)
        self.assertEqual(made, again)
        names = [it for it in made if it not in ("PROOF.txt", "SHA256SUMS")]
        self.assertEqual([it[9:].startswith(VERSION) for it in names], [True] * 3, names)
        sums = dict(reversed(line.split("  ")) for line in made["SHA256SUMS"].decode().splitlines())
        self.assertEqual(sums, {it: hashlib.sha256(made[it]).hexdigest() for it in (*names, "PROOF.txt")})
        for told in (made["PROOF.txt"].decode(), self.control("Description")):
            self.assertRegex(told.replace("\n ", " "), "[Nn]othing (here )?shows that (they|these programs) are proved")
            self.assertNotIn("is proved correct", told)
        self.look_at_tar(next(it for it in names if it.endswith(".tar.gz")))
        self.look_at_wheel(next(it for it in names if it.endswith(".whl")))
        self.look_at_deb()

    def control(self, field):
        deb = next(it for it in os.listdir(self.out) if it.endswith(".deb"))
        return run("dpkg-deb", "-f", f"{self.out}/{deb}", field).stdout

    def look_at_tar(self, name):
        top = name.removesuffix(".tar.gz")
        with tarfile.open(f"{self.out}/{name}") as file:
            members = {it.name.removeprefix(f"{top}/"): it for it in file}
        self.assertEqual({it.mtime for it in members.values()}, {SECOND})
        self.assertEqual({(it.uid, it.gid) for it in members.values()}, {(0, 0)})
        self.assertEqual(members["lib/librusboqan.so"].linkname, "librusboqan.so.1")
        self.assertEqual(members["bin/taxi"].linkname, "../taxi")
        programs = ("taxi", "taxi-tools", "libexec/taxi", "libexec/taxi-tools", "tools/day_page")
        self.assertEqual({members[it].mode for it in programs}, {0o755})
        others = {"README.md", "docs/INSTALL.md", "examples/choice/airport.csv", "share/man/man3/rusboqan.3", "SOURCES.txt"}
        self.assertEqual(others - set(members), set())
        with tarfile.open(f"{self.out}/{top}.tar.gz") as file:
            page = file.extractfile(members["share/man/man3/rusboqan.3"]).read().decode()
        self.assertIn("\nuint8_t rusboqan_why(const uint8_t *airport, size_t length, uint32_t *record);\n", page)
        self.assertNotIn("@", page)
        self.assertFalse([it for it in members if it.startswith(("crates", "tools/package_parts", "install", "package"))])

    def look_at_wheel(self, name):
        self.assertRegex(name, rf"^rusboqan-{VERSION}-py3-none-manylinux_2_\d+_x86_64\.whl$")
        with zipfile.ZipFile(f"{self.out}/{name}") as file:
            self.assertEqual({it.date_time for it in file.infolist()}, {(2026, 12, 2, 0, 0, 0)})
            listed = f"rusboqan-{VERSION}.dist-info/RECORD"
            record = {row[0]: row for row in csv.reader(io.StringIO(file.read(listed).decode())) if row[1]}
            for place, (_, digest, size) in record.items():
                data = file.read(place)
                wanted = base64.urlsafe_b64encode(hashlib.sha256(data).digest()).decode().rstrip("=")
                self.assertEqual((digest, size), (f"sha256={wanted}", str(len(data))))
            self.assertEqual(set(file.namelist()) - set(record), {listed})
            for it in (it for it in file.infolist() if it.filename.startswith("rusboqan/programs/")):
                os.chmod(file.extract(it, f"{self.out}/wheel"), it.external_attr >> 16)
        ran = run(f"{self.out}/wheel/rusboqan/programs/taxi", "migrate", f"{TOP}/examples/choice/airport.csv")
        self.assertEqual((ran.returncode, ran.stderr), (0, ""))
        self.assertLessEqual({"rusboqan/librusboqan.so", "rusboqan/py.typed", "rusboqan/programs/libexec/taxi"}, set(record))

    def look_at_deb(self):
        self.assertRegex(self.control("Depends"), r"^libc6 \(>= 2\.\d+\), python3 \(>= 3\.9\)\n$")
        deb = next(it for it in os.listdir(self.out) if it.endswith(".deb"))
        listed = run("dpkg-deb", "-c", f"{self.out}/{deb}").stdout
        for place in ("./usr/bin/taxi -> ../lib/rusboqan/taxi", f"./usr/lib/x86_64-linux-gnu/librusboqan.so.1 -> librusboqan.so.{VERSION}",
                      "./usr/share/man/man1/taxi.1.gz", "./usr/lib/python3/dist-packages/rusboqan/__init__.py"):
            self.assertIn(f" {place}\n", listed)
        self.assertNotIn("/usr/local", listed)

    def test_the_library_shows_its_calls_alone(self):
        self.made("--programs", self.programs)
        shared = f"{self.out}/shared"
        with tarfile.open(next(f"{self.out}/{it}" for it in os.listdir(self.out) if it.endswith(".gz"))) as file, open(shared, "wb") as out:
            out.write(file.extractfile(next(it for it in file.getnames() if it.endswith(f"librusboqan.so.{VERSION}"))).read())
        self.assertRegex(run("readelf", "-d", shared).stdout, r"soname: \[librusboqan\.so\.1\]")
        shown = run("readelf", "--wide", "--dyn-syms", shared).stdout
        self.assertIn("rusboqan_version", shown)
        self.assertNotIn("another", shown)

    def test_nothing_is_proved_without_asking(self):
        self.write(f"{self.path}/rt", f'#!/bin/sh\necho "$@" >>{self.out}/asked\necho rattle-kit-0 logic 123abc\n', 0o755)
        for script in ("package", "install"):
            ran = self.call(script, self.out, path=f"{self.path}:")
            self.assertEqual((ran.returncode, ran.stdout), (70, ""), script)
            self.assertIn("--build", ran.stderr)
        self.assertEqual([it for it in os.listdir(self.out) if it != "asked"], [])

    def test_what_the_gate_said_is_told(self):
        self.stand_in_for_the_toolchain()
        ran = self.call("package", "--build", self.out, path=f"{self.path}:")
        self.assertEqual(ran.returncode, 0, ran.stderr)
        with open(f"{self.out}/PROOF.txt", encoding="utf-8") as file:
            told = file.read()
        empty = hashlib.sha256(b"").hexdigest()
        lines = ("toolchain  rattle-kit-0 logic 123abc", "logic      123abc", "    212 passed, 0 failed", f"{empty}  crates/one/src/lib.rt")
        self.assertEqual([it for it in lines if f"{it}\n" not in told], [])
        self.assertIn("is proved correct", self.control("Description").replace("\n ", " "))
        self.assertEqual(self.call("package", self.out, path=f"{self.path}:").returncode, 0)
        self.write(f"{self.top}/crates/one/src/lib.rt", "// another source\n")
        self.addCleanup(self.write, f"{self.top}/crates/one/src/lib.rt", "")
        self.assertEqual(self.call("package", self.out, path=f"{self.path}:").returncode, 70)

    def stand_in_for_the_toolchain(self):
        """An `rt` that builds by copying."""
        kit = f"{self.out}/kit"
        self.compile("int heap;", "-c", "-o", f"{self.out}/heap.o")
        os.makedirs(f"{kit}/c")
        run("ar", "rcD", f"{kit}/c/liblibc_c.a", f"{self.out}/heap.o")
        builds = "".join(
            f"mkdir -p crates/{crate}/out; cp {self.programs}/{name} crates/{crate}/out/{made}\n"
            for crate, name, made in (("taxi_cli", "taxi", "taxi_cli"), ("taxi_tools", "taxi-tools", "taxi_tools"),
                                      ("taxi_library", "librusboqan.a", "libtaxi_library.a")))
        self.write(f"{self.path}/rt", f"#!/bin/sh\ncase $1 in\nversion) echo rattle-kit-0 logic 123abc ;;\ndoc) echo {kit}/START ;;\n"
                   f"ci) {builds} printf '{SAID}' ;;\nesac\n", 0o755)
        self.addCleanup(shutil.rmtree, f"{self.top}/out", True)

    def test_a_gate_that_fails(self):
        says = "[ $1 = version ] && echo rattle-kit-0 logic 1 && exit\necho 3 passed, 1 failed\nexit 1\n"
        self.write(f"{self.path}/rt", f"#!/bin/sh\n{says}", 0o755)
        ran = self.call("package", "--build", self.out, path=f"{self.path}:")
        self.assertEqual((ran.returncode, os.listdir(self.out)), (1, []))
        self.assertIn("rt ci ended with status 1; the end of out/rt-ci.log says why", ran.stderr)

    def test_what_was_there_stays_where_a_package_fails(self):
        self.write(f"{self.out}/SHA256SUMS", "as it was")
        self.write(f"{self.path}/dpkg-deb", "#!/bin/sh\necho no room left >&2\nexit 2\n", 0o755)
        self.addCleanup(os.remove, f"{self.path}/dpkg-deb")
        ran = self.call("package", "--programs", self.programs, self.out, path=f"{self.path}:")
        self.assertEqual((ran.returncode, ran.stdout, os.listdir(self.out)), (1, "", ["SHA256SUMS"]))
        self.assertEqual(ran.stderr, "package: dpkg-deb ended with status 2: no room left\n")

    def test_what_is_missing_is_told_in_a_line(self):
        ran = self.call("package", "--programs", "/nowhere", self.out)
        self.assertEqual((ran.returncode, os.listdir(self.out)), (1, []))
        self.assertRegex(ran.stderr, r"^package: /nowhere/taxi: there is no such file[^\n]*\n$")


class Install(PackageTest):
    def test_a_folder_that_can_be_moved(self):
        ran = self.call("install", "--programs", self.programs, f"{self.out}/first")
        self.assertEqual((ran.returncode, ran.stderr), (0, ""))
        os.rename(f"{self.out}/first", f"{self.out}/second")
        self.assertEqual(run(f"{self.out}/second/bin/taxi", "--version").stdout, f"rusboqan {VERSION}\n")
        if shutil.which("pkg-config"):
            place = {**os.environ, "PKG_CONFIG_PATH": f"{self.out}/second/lib/pkgconfig"}
            flags = run("pkg-config", "--libs", "rusboqan", env=place).stdout
            text = '#include <stdint.h>\nuint32_t rusboqan_version(void);\nint main(void) { return rusboqan_version() != 10300; }\n'
            self.compile(text, "-o", f"{self.out}/caller", "-x", "none", *flags.split())
            self.assertEqual(run(f"{self.out}/caller", env={}).returncode, 0)


    def test_removing_takes_out_what_was_installed_and_no_more(self):
        self.write(f"{self.out}/bin/other", "")
        for _ in range(2):
            self.assertEqual(self.call("install", "--programs", self.programs, self.out).returncode, 0)
        self.write(f"{self.out}/lib/rusboqan/examples/mine.txt", "")
        self.assertEqual(self.call("install", "--remove", self.out).returncode, 0)
        left = sorted(f"{at}/{it}".removeprefix(f"{self.out}/") for at, _, files in os.walk(self.out) for it in files)
        self.assertEqual((left, sorted(os.listdir(self.out))), (["bin/other", "lib/rusboqan/examples/mine.txt"], ["bin", "lib"]))
        again = self.call("install", "--remove", self.out)
        self.assertEqual((again.returncode, again.stderr.count("\n")), (1, 1))


class Helps(unittest.TestCase):
    """Man pages and completions have the verbs that --help tells."""

    def test_verbs(self):
        pages = f"{TOP}/tools/package_parts/pages"
        for name in ("taxi", "taxi-tools"):
            told = run(f"{TOP}/{name}", "--help").stdout
            verbs = {line.split()[1] for line in told.splitlines() if line.startswith(f"  {name} ")} - {"--build", "--unproved", "--help,"}
            self.assertGreaterEqual(len(verbs), 5)
            for end, form in ((".1", ".B {}\n"), (".bash", " {} "), (".zsh", "'{}:")):
                with open(f"{pages}/{name}{end}", encoding="utf-8") as file:
                    text = file.read().replace('"', " ")
                self.assertEqual([it for it in sorted(verbs) if form.format(it) not in text], [], name + end)


if __name__ == "__main__":
    unittest.main()
