"""Makes an airport file out of the ground network of an airport: the modules of tools/airport_from_xplane."""
