"""Lines of a replay that make a tree of pages row by row, with the expected answers."""


class Growing:
    """A tree that grows at its right end: each row is placed on the last leaf. If that is full it is split, and
    if a page above it is full that is split first.

    Every row's key is (5 5) unless another is given, and its tag is three times its number.
    """

    def __init__(self, fan, kept):
        self.fan = fan
        # How many entries a split leaves to the new page
        self.kept = kept
        self.sides = "l" * (fan - kept) + "r" * kept
        # How many entries each page has
        self.entries = [0]
        # The level of each page, 0 for a leaf
        self.levels = [0]
        # The last page of each level, from the root on
        self.path = [0]
        self.commits = 0
        self.pairs = []

    def give(self, line, answer):
        """Adds a line with its answer."""
        self.pairs.append((line, answer))

    def taken(self):
        """The lines since the last time, with their answers."""
        pairs, self.pairs = self.pairs, []
        return pairs

    def grow(self):
        """The root's entries go to two new pages."""
        left, right = len(self.entries), len(self.entries) + 1
        self.give(f"grow {self.sides}", f"grown {left} {right}")
        self.entries += [self.fan - self.kept, self.kept]
        self.entries[0] = 2
        self.levels += [self.levels[0]] * 2
        self.levels[0] += 1
        self.path.insert(1, right)

    def split(self, page):
        """A page below the root is split, and the sibling posted to its parent."""
        if self.entries[self.path[self.path.index(page) - 1]] == self.fan:
            self.make_room(self.path[self.path.index(page) - 1])
        at, new = self.path.index(page), len(self.entries)
        parent = self.path[at - 1]
        self.give(f"split {page} {self.sides}", f"split {new}")
        self.give(f"post {parent} {page}", "posted")
        self.entries[page] = self.fan - self.kept
        self.entries.append(self.kept)
        self.levels.append(self.levels[page])
        self.entries[parent] += 1
        self.path[at] = new

    def make_room(self, page):
        """After this a full page of the path has room, or the page that takes its place there has."""
        if page == 0:
            self.grow()
        else:
            self.split(page)

    def place(self):
        """Places a row on the last leaf."""
        if self.entries[self.path[-1]] == self.fan:
            self.make_room(self.path[-1])
        self.put("(5 5)")

    def place_elsewhere(self, key):
        """Places a row with another key, for which the bounds on the way are widened."""
        if self.entries[self.path[-1]] == self.fan:
            self.make_room(self.path[-1])
        for parent, page in zip(self.path, self.path[1:]):
            self.give(f"enlarge {parent} {page} {key}", "enlarged")
        self.put(key)

    def put(self, key):
        """The line that places a row on the last leaf, which has room."""
        self.commits += 1
        self.entries[self.path[-1]] += 1
        self.give(f"place {self.path[-1]} {key} {3 * self.commits}", f"committed {self.commits}")

    def place_up_to(self, last):
        """Places rows up to one with a number."""
        while self.commits < last:
            self.place()
