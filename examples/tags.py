#!/usr/bin/env python3
"""An index of songs by their tags: queries that are composed, and what a plain loop does better.

    GIST_LIB_DIR=FOLDER PYTHONPATH=bindings/python examples/tags.py [--times]

It ends with status 0 only if the index and a plain loop over all songs give the same. --times prints how long each
took.
"""
import collections
import random
import sys
import time
from typing import Any, Callable, Dict, FrozenSet, Iterable, Iterator, List, Optional, Tuple

from gist import Query, Row, Set, Snapshot, Store, holds, overlaps, within

TAGS = (
    "rock pop jazz folk metal blues soul funk punk disco house techno ambient classical opera choir solo duet live studio acoustic electric "
    "loud quiet fast slow sad happy old new long short german french english spanish spoken instrumental remix cover"
).split()


class TagIndex:
    """Songs by their tags. A song's number is its row's tag, and a name's place in TAGS its number in a set."""

    def __init__(self) -> None:
        self.store: Store[Set] = Store(Set)
        self.numbers = {name: number for number, name in enumerate(TAGS)}
        self.rows: Dict[int, int] = {}

    def set_of(self, names: Iterable[str]) -> Set:
        """The set of some tags. A name that isn't one is a KeyError."""
        return Set(self.numbers[name] for name in names)

    def add(self, songs: Dict[int, FrozenSet[str]]) -> None:
        """Adds songs with their tags."""
        rows = self.store.insert_all((self.set_of(tags), song) for song, tags in songs.items())
        self.rows.update(zip(songs, rows))

    def retag(self, song: int, tags: Iterable[str]) -> None:
        """Gives a song other tags, by one commit: nobody sees it with none, or twice."""
        self.rows[song] = self.store.move(self.rows[song], self.set_of(tags))

    def remove(self, song: int) -> None:
        """Removes a song."""
        self.store.delete(self.rows.pop(song))

    def query(self, all_of: Iterable[str] = (), any_of: Optional[Iterable[str]] = None, none_of: Iterable[str] = ()) -> Query[Set]:
        """Asks for songs with all of some tags, any of some, and none of some."""
        asked = holds(self.set_of(all_of))
        if any_of is not None:
            asked &= overlaps(self.set_of(any_of))
        if none_of:
            asked &= ~overlaps(self.set_of(none_of))
        return asked

    def names(self, row: Row) -> List[str]:
        """The tags of a row."""
        return [TAGS[number] for number in sorted(row.key)]


def some_songs(count: int) -> Dict[int, FrozenSet[str]]:
    """Songs with tags by chance."""
    dice = random.Random(1)
    return {song: frozenset(dice.sample(TAGS, dice.randint(3, 7))) for song in range(1, count + 1)}


class Clock:
    """Prints how long things took, if that is wanted."""

    def __init__(self, is_wanted: bool) -> None:
        self.is_wanted = is_wanted

    def time(self, what: str, do: Callable[[], Any]) -> Any:
        """Does something, and prints how long it took."""
        begin = time.perf_counter()
        result = do()
        if self.is_wanted:
            print(f"{what}: {(time.perf_counter() - begin) * 1000:.1f} ms", file=sys.stderr)
        return result


def songs_of(rows: Iterable[Any]) -> List[int]:
    """The songs of some rows or items, rising."""
    return sorted(row.tag for row in rows)


def asked_of(index: TagIndex) -> Iterator[Tuple[str, Any, Callable[[FrozenSet[str]], Any]]]:
    """What is asked: a sentence, the query, and the same as a test of a song's tags."""
    yield "rock that is live", index.query(["rock", "live"]), lambda tags: {"rock", "live"} <= tags
    yield (
        "jazz or blues, with choir, but neither sad nor slow",
        index.query(["choir"], ["jazz", "blues"], ["sad", "slow"]),
        lambda tags: "choir" in tags and tags & {"jazz", "blues"} and not tags & {"sad", "slow"},
    )
    yield (
        "all of metal, loud, fast and live",
        index.query(["metal", "loud", "fast", "live"]),
        lambda tags: {"metal", "loud", "fast", "live"} <= tags,
    )
    few = ["folk", "acoustic", "solo", "quiet", "sad", "slow", "german", "old"]
    yield f"no tag but {' '.join(few)}", within(index.set_of(few)), lambda tags: tags <= set(few)
    # `not` says nothing of a page's bound, so this reads every page, and the loop is as good
    yield "without rock", ~overlaps(index.set_of(["rock"])), lambda tags: "rock" not in tags


def tag_counts(now: Snapshot[Set]) -> Dict[str, int]:
    """How many songs each tag has. Every row matters, so one loop over them does it, and no query would help."""
    counts = collections.Counter(number for row in now for number in row.key)
    return {TAGS[number]: count for number, count in counts.items()}


def main() -> int:
    clock = Clock(sys.argv[1:] == ["--times"])
    songs, index = some_songs(20_000), TagIndex()
    clock.time("adding", lambda: index.add(songs))

    # one follows what is both new and loud while songs change
    with index.store.open(index.query(["new", "loud"])) as fresh:
        there = songs_of(fresh.items(len(songs)))
        going, ending = there[0], there[1]
        coming = min(songs.keys() - set(there))
        songs[going], songs[coming] = frozenset(["quiet"]), frozenset(["new", "loud", "rock"])
        for song in (going, coming):
            index.retag(song, songs[song])
        index.remove(ending)
        del songs[ending]
        changes = [(item.kind.name.lower(), item.tag) for item in fresh]
        print(f"new and loud: {len(there)}, and then {changes}")
        is_right = changes == [("deleted", going), ("inserted", coming), ("deleted", ending)]

    with index.store.snapshot() as now:
        for sentence, query, is_wanted in asked_of(index):
            found = clock.time(f"{sentence}, by the index", lambda: songs_of(now.find(query)))
            looped = clock.time(f"{sentence}, by a loop", lambda: [song for song, tags in songs.items() if is_wanted(tags)])
            clock.time(f"{sentence}, counted by the index", lambda: now.count(query))
            is_right = is_right and found == sorted(looped)
            print(f"{sentence}: {len(found)}")
        counts = clock.time("songs of each tag", lambda: tag_counts(now))
        is_right = is_right and counts == collections.Counter(tag for tags in songs.values() for tag in tags)
        print(f"songs of each tag, the first three: {sorted(counts.items())[:3]}")
    print("the index and the loop agree" if is_right else "THE INDEX AND THE LOOP DIFFER")
    return 0 if is_right else 1


if __name__ == "__main__":
    sys.exit(main())
