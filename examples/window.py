#!/usr/bin/env python3
"""A window on a map: what is in it now, and then what comes into it, moves in it and leaves it.

    GIST_LIB_DIR=FOLDER PYTHONPATH=bindings/python examples/window.py
"""
from gist import Box, Cursor, Kind, Store, overlaps


def show(window: Cursor) -> None:
    """Prints what a cursor gives now."""
    for item in window:
        if item.kind is Kind.DELETED:
            print(f"{item.tag} has left")
        else:
            print(f"{item.tag} is at {item.key.x1} {item.key.y1}")


def main() -> None:
    vehicles = Store(Box)
    bus, truck = vehicles.insert_all([((0, 0, 2, 2), 101), ((5, 5, 6, 6), 102)])

    window = vehicles.open(overlaps(Box(1, 1, 9, 9)))
    show(window)  # 101 is at 0 0, 102 is at 5 5

    vehicles.move(bus, (20, 20, 22, 22))
    vehicles.move(truck, (7, 5, 8, 6))
    show(window)  # 101 has left, 102 is at 7 5


if __name__ == "__main__":
    main()
