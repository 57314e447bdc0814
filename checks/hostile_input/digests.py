"""Pages of cells that have one digest, for two ways in which a digest could be taken."""

import itertools

from checks.harness import CannotRun

# The classes of `Line_Break` as rule LB1 leaves them, in the order in which the program numbers them.
CLASSES = (
    "AL B2 BA BB BK CB CL CM CP CR EB EM EX GL H2 H3 HL HY ID IN IS JL JT JV LF NL NS NU OP PO PR QU RI SP SY WJ ZW ZWJ"
).split()

# The multipliers of two digests of a page that are the sum of its cells' numbers by the multiplier's powers, each with
# the digest's bits and how many codes of a page are chosen so that the digest stays the same.
DIGESTS = [(0x100000001B3, 64, 15), (0x2360ED051FC65DA44385DF649FCCF645, 128, 30)]

ROWS = 65_536
PAGES = 4352


class Lattice:
    """A base of a lattice, made short by the algorithm of Lenstra, Lenstra and Lovasz in whole numbers."""

    def __init__(self, rows):
        self.rows = rows
        self.sizes = [1] + [0] * len(rows)
        self.parts = [[0] * len(rows) for _ in rows]

    def shorten(self, k, j):
        """Takes from a row as many times another as makes it short."""
        parts = self.parts
        times = (2 * parts[k][j] + self.sizes[j + 1]) // (2 * self.sizes[j + 1])
        if times:
            self.rows[k] = [x - times * y for x, y in zip(self.rows[k], self.rows[j])]
            parts[k][j] -= times * self.sizes[j + 1]
            for i in range(j):
                parts[k][i] -= times * parts[j][i]

    def exchange(self, k, last):
        """Exchanges a row with the one before it."""
        rows, parts, sizes = self.rows, self.parts, self.sizes
        rows[k], rows[k - 1] = rows[k - 1], rows[k]
        for j in range(k - 1):
            parts[k][j], parts[k - 1][j] = parts[k - 1][j], parts[k][j]
        part = parts[k][k - 1]
        new = (sizes[k - 1] * sizes[k + 1] + part * part) // sizes[k]
        for i in range(k + 1, last + 1):
            old = parts[i][k]
            parts[i][k] = (sizes[k + 1] * parts[i][k - 1] - part * old) // sizes[k]
            parts[i][k - 1] = (new * old + part * parts[i][k]) // sizes[k + 1]
        sizes[k] = new

    def project(self, k):
        """Takes a row in, by its products with those before it."""
        for j in range(k + 1):
            product = sum(x * y for x, y in zip(self.rows[k], self.rows[j]))
            for i in range(j):
                product = (self.sizes[i + 1] * product - self.parts[k][i] * self.parts[j][i]) // self.sizes[i]
            if j < k:
                self.parts[k][j] = product
            else:
                self.sizes[k + 1] = product

    def is_long(self, k):
        """Whether a row is to be exchanged with the one before it."""
        sizes = self.sizes
        return k > 0 and 100 * sizes[k - 1] * sizes[k + 1] < 99 * sizes[k] ** 2 - 100 * self.parts[k][k - 1] ** 2

    def reduced(self):
        k, last = 0, -1
        while k < len(self.rows):
            if k > last:
                last = k
                self.project(k)
            if k > 0:
                self.shorten(k, k - 1)
            if self.is_long(k):
                self.exchange(k, last)
                k -= 1
            else:
                for j in reversed(range(k - 1)):
                    self.shorten(k, j)
                k += 1
        return self.rows


def cancelling_pages(multiplier, bits, length):
    """Pages of one such digest that differ in their last codes only, named by those codes' classes."""
    middle = CLASSES.index("ID")
    # A class has 32 times its place as its number.
    modulus = 2 ** (bits - 5)
    powers = [pow(multiplier, length - 1 - k, modulus) for k in range(length)]
    rows = [[int(k == j) for k in range(length)] + [1024 * power] for j, power in enumerate(powers)]
    base = Lattice(rows + [[0] * length + [1024 * modulus]]).reduced()
    base = sorted((row[:-1] for row in base if row[-1] == 0 and any(row)), key=lambda row: max(map(abs, row)))
    most = min(PAGES, (ROWS - 1) // length)
    found = set()
    for chosen in itertools.chain(*(itertools.combinations(base, count) for count in (1, 2, 3, 4))):
        for signs in itertools.product((-1, 1), repeat=len(chosen)):
            sums = [sum(sign * part for sign, part in zip(signs, parts)) for parts in zip(*chosen)]
            if min(sums) >= -middle and max(sums) < len(CLASSES) - middle:
                found.add(tuple(sums))
        if len(found) >= most:
            break
    pages = sorted(found)[:most]
    if len(pages) < most or any(sum(x * y for x, y in zip(page, powers)) % modulus for page in pages):
        raise CannotRun("too few pages of one digest")
    return [[CLASSES[middle + part] for part in page] for page in pages]
