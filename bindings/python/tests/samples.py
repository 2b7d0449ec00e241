"""Programs that the tests load, and the repository that has more of them."""

from pathlib import Path

TOP = Path(__file__).resolve().parents[3]
OBJECTS = TOP / "tests/objects"

# returns 7
SEVEN = bytes.fromhex("b7000000070000009500000000000000")
# reads four bytes of the context, and returns them
READ = bytes.fromhex("61100000000000009500000000000000")
# emits the byte of the context and returns 7
EMIT = bytes.fromhex("71110000000000008500000003000000b7000000070000009500000000000000")
# takes a cell, reads back the 5 that it wrote there, and returns it; 0 if it gets none
CELL = bytes.fromhex("b701000000000000850000000100000015000500000000007a000000050000007906000000000000bf010000000000008500000002000000"
                     "bf600000000000009500000000000000")
# takes what is on the shelf of records, and gives it back
FETCH = bytes.fromhex("b701000001000000b70200000000000085000000040000001500020000000000bf010000000000008500000002000000b700000000000000"
                      "9500000000000000")
# leaves a record with the byte of the context on the shelf of records, and gives back what was there
LEAVE = bytes.fromhex("7116000000000000b701000001000000850000000100000015000800000000007b60000000000000b701000001000000bf02000000000000"
                      "85000000040000001500020000000000bf010000000000008500000002000000b7000000000000009500000000000000")
# counts down from 3 in a loop, and returns 0
COUNT = bytes.fromhex("b70000000300000017000000010000005500feff000000009500000000000000")
# counts up without end
ENDLESS = bytes.fromhex("b70200000000000007020000010000000500feff000000009500000000000000")


def in_turn(count: int) -> bytes:
    """A program that emits that many numbers, each the number of those before it, and returns 0."""
    slots = [f"b7010000{at.to_bytes(4, 'little').hex()}8500000003000000" for at in range(count)]
    return bytes.fromhex("".join([*slots, "b7000000000000009500000000000000"]))
