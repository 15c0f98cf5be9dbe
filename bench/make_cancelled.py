#!/usr/bin/env python3
"""Writes commands that file N flights and cancel them all in another order, and then ask for the windows of every segment:
make_cancelled.py N AIRPORT.

AIRPORT is a file of make_airport.py. Each line of windows is then `window 0 H`, H being the horizon.
"""
import subprocess
import sys
from pathlib import Path

MAKE_FILED = Path(__file__).resolve().parent / "make_filed.py"


def main():
    """Prints the commands of the three parts."""
    flights, airport = int(sys.argv[1]), sys.argv[2]
    filed = subprocess.run([sys.executable, MAKE_FILED, str(flights), airport], check=True, capture_output=True, text=True)
    sys.stdout.write(filed.stdout)
    # 1,543 is prime, so each flight comes once.
    for k in range(flights):
        print(f"cancel F{1543 * k % flights}")
    for line in Path(airport).read_text().splitlines():
        if line.startswith("segment,"):
            print("windows", line.split(",")[1])


main()
