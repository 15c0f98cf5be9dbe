#!/usr/bin/env python3
"""Writes what `generate` makes: make_square.py NUMBER SIDE FLIGHTS AIRPORT COMMANDS.

The airport, a square of so many nodes a side, goes to the file AIRPORT, and the commands over it to COMMANDS.
"""
import sys
from pathlib import Path


def drawing(number):
    """A function that draws a number below another, in the order in which `generate` does from this one."""
    state = number

    def draw(below):
        nonlocal state
        state = (6364136223846793005 * state + 1442695040888963407) % 2**64
        return (state >> 33) % below

    return draw


def nodes(side):
    """The records of the nodes, row by row: runway nodes on the first, stands on the last."""
    kinds = ["runway" if row == 0 else "stand" if row == side - 1 else "junction" for row in range(side)]
    return [f"node,N{row}-{column},{kind}" for row, kind in enumerate(kinds) for column in range(side)]


def segments(side):
    """The names of the segments and their ends: along the rows first, and then from row to row."""
    along = [(f"E{row}-{column}", f"N{row}-{column},N{row}-{column + 1}") for row in range(side) for column in range(side - 1)]
    across = [(f"V{row}-{column}", f"N{row}-{column},N{row + 1}-{column}") for row in range(side - 1) for column in range(side)]
    return along + across


def seconds(draw, name):
    """The records of a segment's seconds, which are drawn."""
    more = draw(41)
    return [f"seconds,{name},M,{20 + more}", f"seconds,{name},H,{30 + more}"]


def conflicts(side):
    """The records of the conflicts: segments side by side, every fifth pair."""
    places = [(row, column) for row in range(side - 1) for column in range(side - 1) if (row + column) % 5 == 0]
    return [f"conflict,V{row}-{column},V{row}-{column + 1}" for row, column in places]


def airport_rows(draw, side):
    """The records of the airport."""
    rows = ["taxi-airport,1", "horizon,86400", *nodes(side), "class,M", "class,H"]
    rows += [f"segment,{name},{ends},both" for name, ends in segments(side)]
    rows += [row for name, _ in segments(side) for row in seconds(draw, name)]
    return rows + conflicts(side)


def command(draw, side, flight):
    """The command of the flight of a number: an arrival from the first row to the last, or a departure back."""
    is_departure, is_heavy, runway, stand, time = draw(2), draw(2), draw(side), draw(side), draw(7200)
    name, first, last = f"F{flight} {'H' if is_heavy else 'M'}", f"N0-{runway}", f"N{side - 1}-{stand}"
    return f"departure {name} {last} {first} {time + 3600} 600" if is_departure else f"arrival {name} {first} {last} {time} 600"


def main():
    """Writes the two files. The airport is drawn before the commands, as `generate` does."""
    number, side, flights = (int(word) for word in sys.argv[1:4])
    draw = drawing(number)
    rows = airport_rows(draw, side)
    commands = [command(draw, side, flight) for flight in range(flights)]
    Path(sys.argv[4]).write_text("\n".join(rows) + "\n")
    Path(sys.argv[5]).write_text("\n".join(commands) + "\n")


main()
