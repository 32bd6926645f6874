#!/usr/bin/env python3
"""Measures the crate `feed`: what telling subscribers costs beside a move of a box, and what a plain list of their queries costs, and
cursors.

The program is built from bench/feeds, and stays in bench/out.
"""

import argparse
import subprocess

from program import build

FIELDS = ("wall", "commits", "items")

# A store has no more.
MOST_CURSORS = 256

# Microseconds a commit with 10,000 subscriptions, one in a thousand matching, and nanoseconds an item.
COMMIT_AIM = 2.5
ITEM_AIM = 150


def parts(program, *numbers):
    """What the program prints about the moves, the feed, the plain list and the cursors."""
    told = subprocess.run([program, *map(str, numbers)], stdout=subprocess.PIPE, check=True, text=True).stdout
    return [dict(zip(FIELDS, map(int, line.split()))) for line in told.splitlines()]


def each(part, name):
    """Of a part, a number a commit."""
    return part[name] / max(part["commits"], 1)


def main():
    parser = argparse.ArgumentParser(description=__doc__.splitlines()[0])
    parser.add_argument("--subscriptions", type=int, nargs="+", default=[1, 256, 10_000, 100_000])
    parser.add_argument("--rows", type=int, default=100_000)
    parser.add_argument("--moves", type=int, default=1_000_000)
    parser.add_argument("--viewers", type=int, default=1, help="how many subscribe to each query")
    parser.add_argument("--build", action="store_true", help="build the program, and measure nothing")
    options = parser.parse_args()
    program = build("feeds", "feed_bench")
    if options.build:
        return
    print(f"{options.rows:,} boxes, {options.moves:,} moves, a snapshot each 100, {options.viewers:,} to a query; aimed at {COMMIT_AIM} microseconds a commit, {ITEM_AIM} ns an item")
    print("  subscriptions  move, us  feed, us a commit  items a commit  ns an item  plain list, us a commit  as many cursors")
    for count in options.subscriptions:
        # As many tests by the plain list as take some seconds
        plain = min(options.moves, max(100, 300_000_000 // count // 100 * 100))
        cursors = count if count <= MOST_CURSORS else 0
        moves, fed, asked, _ = parts(program, count, options.rows, options.moves, plain, 0, options.viewers)
        drained = parts(program, 0, options.rows, plain, 0, cursors)[3] if cursors else None
        item = fed["wall"] / fed["items"] if fed["items"] else 0
        print(
            f"  {count:>13,}  {each(moves, 'wall') / 1e3:>8.2f}  {each(fed, 'wall') / 1e3:>17.2f}"
            f"  {each(fed, 'items'):>14.2f}  {item:>10.0f}  {each(asked, 'wall') / 1e3:>23.2f}"
            + (f"  {each(drained, 'wall') / 1e3:>15.2f}" if drained else ""),
            flush=True,
        )


if __name__ == "__main__":
    main()
