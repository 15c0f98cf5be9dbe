"""What the programs and the library took from the heap is given back: no clause of a contract counts what is freed."""

import os
import re
import shutil
import subprocess
import tempfile
import unittest

import programs
from router import SMALL

# One command of each kind that keeps something, a refusal, and a line of no form.
COMMANDS = b"""arrival F1 M R S1 100 0
file X1 M 400 A+ 440
work W1 C 500 560
batch arrival F2 M R S2 800 60 departure G1 M S1 R 1400 60
late X1 410 450
reroute F2 700
occupancy A
timetable
cancel F1
arrival F2 M R S1 100 0
no such command
"""
LIBRARY = os.environ.get("RUSBOQAN_STATIC", f"{programs.TOP}/crates/taxi_library/out/libtaxi_library.a")
# Opens an engine, answers, asks for each text, and closes it, twice.
CALLER = r"""
#include "rusboqan.h"
#include <stdio.h>
#include <string.h>
static uint8_t airport[65536], commands[65536];
static size_t whole(const char *name, uint8_t *room) {
    FILE *file = fopen(name, "rb");
    size_t length = file ? fread(room, 1, 65536, file) : 0;
    if (file) fclose(file);
    return length;
}
static void run(size_t bytes, size_t length) {
    struct rusboqan *engine;
    const uint8_t *text;
    if (!rusboqan_open(airport, bytes, &engine)) return;
    for (size_t from = 0, to; from < length; from = to + 1) {
        for (to = from; to < length && commands[to] != '\n';) to++;
        rusboqan_answer(engine, commands + from, to - from);
        rusboqan_json(engine, 1);
    }
    rusboqan_plan(engine, commands, 0);
    rusboqan_figures(engine);
    rusboqan_checkpoint(engine);
    rusboqan_explain(engine, (const uint8_t *)"arrival F9 M R S1 100 0", 23);
    printf("%zu\n", rusboqan_told(engine, &text));
    rusboqan_close(engine);
}
int main(int argc, char **argv) {
    uint32_t record;
    uint8_t word[64];
    if (argc < 3) return 1;
    size_t bytes = whole(argv[1], airport), length = whole(argv[2], commands);
    rusboqan_why(airport, 9, &record);
    rusboqan_rule(airport, 9, word, sizeof word);
    run(bytes, length);
    run(bytes, length);
    return 0;
}
"""


@unittest.skipUnless(shutil.which("valgrind"), "valgrind is not installed, so nothing looks at what is given back")
class GivenBack(unittest.TestCase):
    def gives_back(self, words):
        """Under valgrind the call makes no error, and gives each block back."""
        with tempfile.TemporaryDirectory() as folder:
            for name, content in (("airport.csv", SMALL), ("commands.txt", COMMANDS)):
                with open(f"{folder}/{name}", "wb") as out:
                    out.write(content)
            ran = subprocess.run(["valgrind", "--leak-check=full", *words], cwd=folder, capture_output=True, timeout=60, check=False)
        said = ran.stderr.decode(errors="replace")
        self.assertEqual(ran.returncode, 0, said)
        self.assertRegex(said, r"All heap blocks were freed|in use at exit: 0 bytes in 0 blocks", said)
        self.assertTrue(re.search(r"ERROR SUMMARY: 0 errors", said), said)
        return ran.stdout

    # What is given back is the same in both builds, so one of them is looked at.
    def test_the_router(self):
        program = programs.builds_of("taxi_cli")[0]
        self.assertTrue(self.gives_back([program, "route", "airport.csv", "commands.txt"]).endswith(b"done 11\n"))

    def test_the_tools(self):
        program = programs.builds_of("taxi_tools")[0]
        for words in ("figures airport.csv commands.txt", "explain airport.csv commands.txt 4"):
            with self.subTest(words=words):
                self.assertTrue(self.gives_back([program, *words.split()]))

    def test_the_library(self):
        if not os.path.exists(LIBRARY) or not shutil.which("cc"):
            self.skipTest("the library is not built, or there is no C compiler: run `rt lib` in crates/taxi_library")
        with tempfile.TemporaryDirectory() as folder:
            with open(f"{folder}/caller.c", "w", encoding="utf-8") as out:
                out.write(CALLER)
            named = os.environ.get("RUSBOQAN_ALLOCATOR", "/opt/rattle/c/liblibc_c.a")
            more = [named] if os.path.exists(named) else []
            made = ["cc", "-std=c99", f"-I{programs.TOP}/include", f"{folder}/caller.c", LIBRARY, *more, "-o", f"{folder}/caller"]
            subprocess.run(made, check=True, timeout=60)
            self.assertTrue(self.gives_back([f"{folder}/caller", "airport.csv", "commands.txt"]))


if __name__ == "__main__":
    unittest.main()
