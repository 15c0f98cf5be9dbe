"""Rusboqan, a verified airport taxi router, in your own process.

    from rusboqan import Engine

    with Engine.of_file("airport.csv") as engine:
        reply = engine.answer("arrival SWR101 M RW09 G1 0 60")
        print(reply.kind, reply.second, [step.arc for step in reply.steps])

The shared library `librusboqan.so` is looked for where the variable RUSBOQAN_LIBRARY says, then beside this package, and then where the
system looks.
"""

from .asked import Asked
from .engine import Engine, version
from .errors import AirportRefused
from .library import VERSION as __version__
from .reply import Comment, FlightRow, Held, Label, Reply, Step, Window
from .tables import Explanation, PlanRow, Wait

__all__ = [
    "AirportRefused", "Asked", "Comment", "Engine", "Explanation", "FlightRow", "Held", "Label", "PlanRow", "Reply", "Step", "Wait",
    "Window", "__version__", "version",
]
