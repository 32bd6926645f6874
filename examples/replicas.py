#!/usr/bin/env python3
"""One process writes, and others have replicas, which they keep up to date through Redis Streams and search by themselves.

    GIST_LIB_DIR=FOLDER PYTHONPATH=bindings/python examples/replicas.py

The writer sends each commit with its number as the number of the message. A replica makes the commits in their order in a
store of its own. So its commits are the writer's first ones, with the same numbers, and so are its rows; how many they
are is all that it has to know to go on after a pause. docs/REPLICAS.md says what is promised, and what Redis has to keep.

Redis is started on a free port of this machine, and stopped at the end. If no redis-server is installed, a line says
so and nothing is done. The status is 0 only if each find of a replica gives what the writer's snapshot of that many
commits has, and all have the same commits at the end.
"""
import multiprocessing
import random
import shutil
import socket
import subprocess
import sys
import tempfile
import time
from contextlib import contextmanager
from multiprocessing.connection import Connection
from typing import Any, Dict, Iterator, List

from gist import Box, Item, Kind, Snapshot, Store

STREAM = "commits"
REPLICAS, ROUNDS, COMMITS_A_ROUND = 3, 12, 250

# In which rounds the last replica is away
AWAY = range(4, 9)

# Seconds that anything may take
LONGEST = 30


class Redis:
    """A connection to Redis, which is asked by lists of words and answers one after the other."""

    def __init__(self, port: int) -> None:
        self.socket = socket.create_connection(("127.0.0.1", port), LONGEST)
        self.answers = self.socket.makefile("rb")

    def close(self) -> None:
        """Ends the connection."""
        self.answers.close()
        self.socket.close()

    def ask_all(self, asked: List[List[Any]]) -> List[Any]:
        """Asks several things at once."""
        self.socket.sendall(b"".join(map(self.written, asked)))
        return [self.answer() for _ in asked]

    def ask(self, *words: Any) -> Any:
        """Asks one thing."""
        return self.ask_all([list(words)])[0]

    @staticmethod
    def written(words: List[Any]) -> bytes:
        """Words as Redis reads them."""
        texts = [str(word).encode() for word in words]
        return b"*%d\r\n" % len(texts) + b"".join(b"$%d\r\n%s\r\n" % (len(text), text) for text in texts)

    def answer(self) -> Any:
        """The next answer."""
        line = self.answers.readline()
        if not line.endswith(b"\r\n"):
            raise EOFError("Redis has ended")
        kind, rest = line[:1], line[1:-2].decode()
        if kind == b"-":
            raise ValueError(f"Redis: {rest}")
        if kind == b"+":
            return rest
        if kind == b"$":
            return None if rest == "-1" else self.answers.read(int(rest) + 2)[:-2].decode()
        if kind == b"*":
            return None if rest == "-1" else [self.answer() for _ in range(int(rest))]
        return int(rest)


@contextmanager
def redis_server() -> Iterator[int]:
    """Redis with nothing in it, on a port of this machine, for a while."""
    with socket.create_server(("127.0.0.1", 0)) as free:
        port = free.getsockname()[1]
    with tempfile.TemporaryDirectory() as folder:
        words = ["redis-server", "--port", str(port), "--bind", "127.0.0.1", "--save", "", "--appendonly", "no", "--dir", folder]
        server = subprocess.Popen(words, stdin=subprocess.DEVNULL, stdout=subprocess.DEVNULL)
        try:
            wait_for_server(port)
            yield port
        finally:
            server.terminate()
            server.wait(LONGEST)


def wait_for_server(port: int) -> None:
    """Waits until Redis answers."""
    end = time.monotonic() + LONGEST
    while True:
        try:
            Redis(port).close()
            return
        except ConnectionRefusedError:
            if time.monotonic() > end:
                raise
            time.sleep(0.02)


# ------------------------------------------------------------------------------------------------------------ the writer


class Writer:
    """A store whose commits are sent."""

    def __init__(self, redis: Redis) -> None:
        self.redis, self.store = redis, Store(Box)
        self.sent = 0
        self.rows: List[int] = []
        self.dice = random.Random(1)

    def place(self) -> Box:
        """Some box."""
        x, y = self.dice.randrange(1000), self.dice.randrange(1000)
        return Box(x, y, x + self.dice.randrange(30), y + self.dice.randrange(30))

    def work(self) -> None:
        """Makes a commit: an insert, a move or a delete."""
        at = self.dice.randrange(len(self.rows)) if self.rows else 0
        what = self.dice.choice(["insert", "insert", "move", "move", "delete"]) if self.rows else "insert"
        if what == "insert":
            self.rows.append(self.store.insert(self.place(), self.dice.randrange(2**64)))
        elif what == "move":
            self.rows[at] = self.store.move(self.rows[at], self.place())
        else:
            self.store.delete(self.rows.pop(at))

    def send(self, now: Snapshot[Box]) -> None:
        """Sends the commits that weren't sent. Redis refuses a number that it has, so no commit is there twice."""
        self.redis.ask_all([["XADD", STREAM, f"{commit.number}-0", *message(commit)] for commit in commits_after(self.sent, now)])
        self.sent = now.commits()


def commits_after(number: int, now: Snapshot[Box]) -> Iterator[Item]:
    """The commits after one, in their order."""
    for further in range(number + 1, now.commits() + 1):
        commit = now.commit(further)
        if commit:
            yield commit


def message(commit: Item) -> List[Any]:
    """What a commit is in the stream."""
    told = {"kind": commit.kind.name, "ended": commit.ended, "tag": commit.tag, "key": " ".join(map(str, commit.key))}
    return [word for field in told.items() for word in field]


# ---------------------------------------------------------------------------------------------------------- the replicas


class Replica:
    """A store that makes the commits of a stream."""

    def __init__(self, port: int) -> None:
        self.port, self.store = port, Store(Box)
        self.redis: Any = Redis(port)

    def go_away(self) -> None:
        """Hears of no more commits."""
        self.redis.close()
        self.redis = None

    def come_back(self) -> None:
        """Goes on after its last commit."""
        self.redis = Redis(self.port)

    def catch_up(self, commit: int) -> None:
        """Applies commits until it has this one."""
        end = time.monotonic() + LONGEST
        while self.store.commits() < commit:
            if time.monotonic() > end:
                raise TimeoutError(f"commit {commit} didn't come")
            last = f"{self.store.commits()}-0"
            streams = self.redis.ask("XREAD", "COUNT", 100, "BLOCK", 100, "STREAMS", STREAM, last)
            for _, messages in streams or []:
                for number, words in messages:
                    self.make(int(number.partition("-")[0]), dict(zip(words[::2], words[1::2])))

    def make(self, number: int, told: Dict[str, str]) -> None:
        """Makes a commit, which has to be the next one."""
        if number != self.store.commits() + 1:
            raise ValueError(f"commit {number} came after {self.store.commits()}: some that were needed are gone from the stream")
        kind, key = Kind[told["kind"]], Box(*map(int, told["key"].split()))
        if kind is Kind.INSERTED:
            self.store.insert(key, int(told["tag"]))
        elif kind is Kind.MOVED:
            self.store.move(int(told["ended"]), key)
        else:
            self.store.delete(int(told["ended"]))

    def find(self, commit: int, text: str) -> Any:
        """The rows found after at least this many commits, and after how many."""
        if self.redis:
            self.catch_up(commit)
        now = self.store.snapshot()
        return now.commits(), [tuple(row) for row in now.find(text)]

    def all_commits(self, commit: int) -> List[Any]:
        """All commits, once there are this many."""
        self.catch_up(commit)
        return [tuple(it) for it in commits_after(0, self.store.snapshot())]


def serve(port: int, pipe: Connection) -> None:
    """A replica's process: does what it is told, until there is nothing more."""
    replica = Replica(port)
    while True:
        word, *values = pipe.recv()
        if word == "end":
            return
        pipe.send(getattr(replica, word)(*values))


class Asked:
    """A replica in a process of its own."""

    def __init__(self, port: int) -> None:
        self.pipe, other = multiprocessing.Pipe()
        self.process = multiprocessing.get_context("spawn").Process(target=serve, args=(port, other), daemon=True)
        self.process.start()
        other.close()

    def ask(self, *words: Any) -> Any:
        """Tells the replica to do something, and gives what it answers."""
        self.pipe.send(words)
        if not self.pipe.poll(LONGEST):
            raise TimeoutError("a replica doesn't answer")
        return self.pipe.recv()

    def end(self) -> None:
        """Ends the process."""
        self.pipe.send(("end",))
        self.process.join(LONGEST)


# --------------------------------------------------------------------------------------------------------------- the run


def run(port: int) -> bool:
    """Writes, has replicas answer meanwhile, and returns whether all was right."""
    writer, replicas = Writer(Redis(port)), [Asked(port) for _ in range(REPLICAS)]
    snapshots: Dict[int, Snapshot[Box]] = {0: writer.store.snapshot()}
    finds = wrong = 0
    for turn in range(ROUNDS):
        if turn == AWAY.start:
            replicas[-1].ask("go_away")
        if turn == AWAY.stop:
            replicas[-1].ask("come_back")
        for _ in range(COMMITS_A_ROUND):
            writer.work()
        now = writer.store.snapshot()
        snapshots[now.commits()] = now
        writer.send(now)
        for replica in replicas:
            x, y = writer.dice.randrange(1000), writer.dice.randrange(1000)
            text = f"overlaps ({x} {y} {x + 200} {y + 200}) and not within (0 0 300 300)"
            commits, rows = replica.ask("find", now.commits(), text)
            # a replica that is away answers as well, with what it had when it went
            is_due = commits == now.commits() or (replica is replicas[-1] and turn in AWAY and commits == AWAY.start * COMMITS_A_ROUND)
            finds += 1
            wrong += not is_due or rows != [tuple(row) for row in snapshots[commits].find(text)]
    last = snapshots[ROUNDS * COMMITS_A_ROUND]
    wanted = [tuple(it) for it in commits_after(0, last)]
    same = [replica.ask("all_commits", last.commits()) == wanted for replica in replicas]
    for replica in replicas:
        replica.end()
    print(f"{last.commits()} commits, {finds} finds by replicas, {wrong} wrong")
    print(f"{sum(same)} of {REPLICAS} replicas have the same commits; one was away for {len(AWAY) * COMMITS_A_ROUND}")
    return wrong == 0 and all(same)


def main() -> int:
    if not shutil.which("redis-server"):
        print("there is no redis-server, so nothing is done")
        return 0
    with redis_server() as port:
        return 0 if run(port) else 1


if __name__ == "__main__":
    sys.exit(main())
