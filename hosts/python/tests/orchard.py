"""Makes the rain book's sample: a shower over an orchard block, received twice, with other radials damaged in each.

    python3 orchard.py FOLDER
"""
import os
import sys
from typing import Dict, List, Sequence

import samples
from samples import Rows

RADIALS, BINS, GATE = 360, 120, .25
#: The peak of the shower: its radial, its gate, its code.
PEAK = (53, 80, 400)
#: Radials that make no row, in each reception.
DAMAGED = {"DPRLOT": (53, 200), "DPRLOT.second": (55, 56, 201)}
#: An inch an hour in 1,000 steps; codes from 1 up.
SCALE = samples.floats(1000.0, 0.0, 65535, 1, 0)


def code(radial: int, gate: int) -> int:
    """The shower's code at a cell: each radial off the peak takes 25 from it, each gate 10."""
    return max(0, PEAK[2] - 25 * abs(radial - PEAK[0]) - 10 * abs(gate - PEAK[1]))


def rows() -> Rows:
    """All codes."""
    return [[code(radial, gate) for gate in range(BINS)] for radial in range(RADIALS)]


def damaged(codes: Rows, radials: Sequence[int]) -> Rows:
    """The same with a level that is none in some radials."""
    return [[70000, *row[1:]] if radial in radials else row for radial, row in enumerate(codes)]


def rate_file(codes: Rows, radials: Sequence[int] = (), gate: float = GATE, scale: bytes = SCALE, **fields: int) -> bytes:
    """A rain rate product of packet 28 with some radials damaged; fields are those of the description block."""
    return samples.product_file("DPR", 176, scale, samples.body28(damaged(codes, radials), gate * 1000, gate * 500), framed=True, elevation=0, **fields)


def files() -> Dict[str, bytes]:
    """Both receptions by name."""
    return {name: rate_file(rows(), radials) for name, radials in DAMAGED.items()}


def main(arguments: List[str]) -> int:
    """Writes them."""
    if len(arguments) != 2:
        print(__doc__, file=sys.stderr)
        return 2
    os.makedirs(arguments[1], exist_ok=True)
    for name, data in files().items():
        samples.write(arguments[1], name, data, body=False)
    return 0


if __name__ == "__main__":
    sys.exit(main(sys.argv))
