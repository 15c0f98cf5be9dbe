"""One version stands at several places. CHANGELOG.md's first heading says it, and the others follow."""
import os
import re
import unittest

TOP = os.path.dirname(os.path.dirname(os.path.dirname(os.path.abspath(__file__))))
# Where the version stands, each with the form that its three numbers have there.
PLACES = {
    "CHANGELOG.md": r"^## (\d+)\.(\d+)\.(\d+),",
    "crates/taxi_library/src/lib.rt": r"^    (\d+)(\d\d)(\d\d)$",
    "include/rusboqan.h": r"^#define RUSBOQAN_VERSION (\d+)(\d\d)(\d\d)$",
    "python/pyproject.toml": r'^version = "(\d+)\.(\d+)\.(\d+)"$',
    "python/rusboqan/library.py": r'^VERSION = "(\d+)\.(\d+)\.(\d+)"$',
    "README.md": r"^    tar xzf rusboqan-(\d+)\.(\d+)\.(\d+)-linux",
}
# Pages with names of packages, which bear the version.
PAGES = ("README.md", "docs/INSTALL.md")


def read(name):
    with open(f"{TOP}/{name}", encoding="utf-8") as file:
        return file.read()


class Versions(unittest.TestCase):
    def test_all_places_say_the_same(self):
        found = {}
        for name, form in PLACES.items():
            first = re.search(form, read(name), re.M)
            found[name] = first and tuple(map(int, first.groups()))
        self.assertEqual(len(set(found.values())), 1, found)

    def test_names_of_packages(self):
        wanted = re.search(r"^## (\d+\.\d+\.\d+)", read("CHANGELOG.md"), re.M)[1]
        for page in PAGES:
            told = set(re.findall(r"rusboqan[-_](\d+\.\d+\.\d+)", read(page)))
            self.assertEqual(told, {wanted}, page)


if __name__ == "__main__":
    unittest.main()
