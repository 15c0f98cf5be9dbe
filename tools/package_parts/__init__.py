"""The parts of ./package and ./install: what is built, how it lies in a package, and the forms of packages."""
