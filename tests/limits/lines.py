"""Lines of any length, reads of any number, queries of any shape at the greatest depth, and rows at many points."""
import socket
import subprocess

from .crowds import open_one_after_the_other
from .talk import Program, Wrong

# What a long line may make the program hold more, in bytes: far less than the line
LITTLE = 4 << 20
LONG = 64 << 20
READS = 1_000_001

# A multiplier of a row's number, by which keys are spread
SPREAD = 2_654_435_761

# Rows that are kept, and the bytes that each may take: the documents say some 90
KEPT = 100_000
BYTES_OF_A_ROW = 120

# The greatest depth of a query. An atom has depth 1.
DEEPEST = 32

# How a part of a query is joined to a further atom, or negated: what comes before it and after it. Every row
# matches the atom of an `and`, and none that of an `or`, so the part alone decides.
JOINTS = {
    "not": ("not ", ""),
    "and left": ("", " and overlaps(0 9)"),
    "and right": ("overlaps(0 9) and ", ""),
    "or left": ("", " or overlaps(90 99)"),
    "or right": ("overlaps(90 99) or ", ""),
}

# What is repeated from the outside of a query to its inside: a joint, and the number of brackets around its part
SHAPES = (
    [("not", 0)],
    [("not", 1)],
    [("and left", 0)],
    [("and left", 2)],
    [("and right", 1)],
    [("or left", 0)],
    [("or left", 3)],
    [("or right", 1)],
    [("or left", 0), ("and left", 2)],
    [("and right", 1), ("or right", 1)],
    [("or right", 1), ("and left", 0), ("and left", 2), ("not", 1)],
    [("or left", 0), ("and right", 1), ("not", 0), ("not", 0), ("not", 1)],
)


def long_lines_cost_no_memory(path):
    """A line of 64 MiB is refused, and the program holds hardly more than before."""
    with Program(path, "serve") as program:
        program.answer(["insert (5 5) 0"], ["committed 1"])
        answers = ["refused 22 Line 4096", "found 1", "row 1 (5 5) 0"]
        program.answer(["x" * 5_000, "find overlaps(0 9)"], answers)
        before = program.held()
        program.answer(["x" * LONG, "find overlaps(0 9)"], answers)
        more = program.held() - before
        if more > LITTLE:
            raise Wrong(f"a line of {LONG:,} bytes made the program hold {more:,} bytes more")
        program.end()


def rows_cost_what_is_told(path):
    """A row with fan 32 takes some 90 bytes. Finds, and cursors that are opened and closed, take nothing that lasts."""
    with Program(path, "serve", "--fan", "32", "--least", "12") as program:
        program.answer(["insert (0 0) 0"], ["committed 1"])
        before, numbers = program.asked(), range(2, KEPT + 1)
        keys = [(number * SPREAD % (100 * KEPT), number % 20) for number in numbers]
        program.answer([f"insert ({low} {low + more}) 7" for low, more in keys], [f"committed {number}" for number in numbers])
        each = (program.asked() - before) / KEPT
        if each > BYTES_OF_A_ROW:
            raise Wrong(f"a row made the program ask for {each:.0f} bytes more")
        before = program.asked()
        open_one_after_the_other(program, 10_000)
        program.answer(["find same(-1 -1)"] * KEPT, ["found 0"] * KEPT)
        more = program.asked() - before
        if more > LITTLE:
            raise Wrong(f"cursors that were closed, and finds, made the program ask for {more:,} bytes more")
        program.end()


def a_million_reads(path, reads=READS):
    """More than a million reads, each of one line feed, don't end a session: what comes after them is answered."""
    ours, theirs = socket.socketpair(socket.AF_UNIX, socket.SOCK_SEQPACKET)
    pipes = {"stdin": theirs, "stdout": subprocess.PIPE, "stderr": subprocess.PIPE}
    with ours, subprocess.Popen(["gist", "serve"], executable=path, **pipes) as child:
        theirs.close()
        for _ in range(reads):
            ours.send(b"\n")
        ours.send(b"insert (5 5) 0\n")
        ours.shutdown(socket.SHUT_WR)
        output, errors = child.communicate()
    if (child.returncode, output, errors) != (0, b"committed 1\n", b""):
        raise Wrong(f"behind {reads:,} reads came {output!r}, {errors!r} and status {child.returncode}")


def query_of(shape, depth, brackets):
    """The text of a query of a shape and a depth, within further brackets."""
    text = "overlaps(5 5)"
    for at in range(depth - 1, 0, -1):
        joint, inner = shape[at % len(shape)]
        before, behind = JOINTS[joint]
        text = f"{before}{'(' * inner}{text}{')' * inner}{behind}"
    return "(" * brackets + text + ")" * brackets


def row_matched(shape):
    """The row that matches such a query of the greatest depth: the first if it has an even number of `not`s."""
    nots = sum(shape[at % len(shape)][0] == "not" for at in range(1, DEEPEST))
    return "1 (5 5) 3" if nots % 2 == 0 else "2 (7 7) 4"


def answer_shape(path, shape, brackets):
    """Each command that has a query answers one as deep as may be, and refuses a deeper one at its first token."""
    text, deeper = query_of(shape, DEEPEST, brackets), query_of(shape, DEEPEST + 1, brackets)
    row = row_matched(shape)
    # The second row is a change to a cursor that follows the first commit, if it matches.
    changes = [f"inserted {row}"] if row.startswith("2") else []
    with Program(path, "serve") as program:
        program.answer(["insert (5 5) 3", "insert (7 7) 4"], ["committed 1", "committed 2"])
        program.answer([f"find {text}"], ["found 1", f"row {row}"])
        program.answer_all([
            (f"find {deeper}", "refused 21 QueryText 5"),
            (f"find   {deeper} ", "refused 21 QueryText 7"),
            (f"find    {deeper}", "refused 21 QueryText 8"),
            (f"open 4 {deeper}", "refused 21 QueryText 7"),
            (f"open 4 from 1 {deeper}", "refused 21 QueryText 14"),
            (f"open 4 {text}", "opened 1"),
            (f"open 4 from 1 {text}", "opened 2"),
        ])
        program.answer(["next 1", "next 1"], [f"row {row}", "empty"])
        program.answer(["next 2"] * (len(changes) + 1) + ["next 3"], [*changes, "empty", "refused 16 NoSuchCursor"])
        program.end()


def queries_of_each_shape(path):
    """Queries of each shape at the greatest depth, and one level deeper, within 0, 1 and 700 brackets."""
    for shape in SHAPES:
        for brackets in (0, 1, 700):
            answer_shape(path, shape, brackets)


def rows_at_points(path):
    """400 rows, each at a point of its own, and the last is found, on pages of eight and of four."""
    for words in ((), ("--fan=4", "--least=2")):
        with Program(path, "serve", *words) as program:
            numbers = range(1, 401)
            program.answer([f"insert ({it} {it}) 0" for it in numbers], [f"committed {it}" for it in numbers])
            program.answer(["find same(400 400)"], ["found 1", "row 400 (400 400) 0"])
            program.end()


def rows_over_several_levels(path):
    """100 rows of many lengths on pages of four: each is found once when it was inserted, and when all are there."""
    keys = [(row % 101 * 37 % 101, row % 101 * 37 % 101 + row % 7) for row in range(1, 101)]
    with Program(path, "serve", "--fan", "4", "--least", "2") as program:
        for row, (low, high) in enumerate(keys, 1):
            program.answer([f"insert ({low} {high}) {row}"], [f"committed {row}"])
            program.answer([f"find same({low} {high})"], ["found 1", f"row {row} ({low} {high}) {row}"])
        for row, (low, high) in enumerate(keys, 1):
            program.answer([f"find same({low} {high})"], ["found 1", f"row {row} ({low} {high}) {row}"])
        program.end()
