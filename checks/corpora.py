"""Texts for scripts/corpora, and its report of how long each way to break them takes."""

import itertools
import os
import random
import re
import resource
import statistics
import time
from typing import NamedTuple

# Line ends, their neighbours, and ill-formed bytes.
ENDS = [end.encode() for end in ("\n", "\r\n", "\r", "\x85", "\u2028", "\u2029", "\v", "\f", "\n\n", "\r\r\n", "\n\r")]
ODD = [b"", b"", b" ", b"\xff", b"\xe4\xb8", b"\xf0\x9f\x98", b"\x80\x80", b"\xed\xa0\x80", b"\xc0\xaf",
    "\u200d".encode(), b"\0"]
# What lies across a cut, and how many of its bytes before it.
ACROSS = [
    (b"\r\n", 1), ("\x85".encode(), 1), ("\u2029".encode(), 1), ("\u2029".encode(), 2), (b"\n", 1), (b"\n", 0),
    ("\U0001f600\n".encode(), 2), (b"\xe4\xb8\n", 1), (b"\xf0\x9f\x98\r\n", 4), (b"\n\n\n\n", 2),
    (b"\r\r\n", 2), (b"\n\xcc\x81a", 1), (b"\r\xff\n", 1),
]


class Maker:
    """Writes texts of random pieces of others."""

    def __init__(self, sources, blocksize, seed):
        self.sources, self.blocksize, self.chance = sources, blocksize, random.Random(seed)

    def cut(self, most):
        """Some bytes of one of the texts, cut anywhere."""
        source = self.chance.choice(self.sources)
        start = self.chance.randrange(len(source))
        return source[start : start + self.chance.randrange(1, most)]

    def paragraph(self, size):
        """So many bytes without a line end."""
        source = self.chance.choice(self.sources)
        plain = re.sub(rb"[\n-\r]|\xc2\x85|\xe2\x80[\xa8\xa9]", b" ", source[: 1 << 20])
        return (plain * (size // len(plain) + 1))[:size]

    def pieces(self, size, long):
        """Pieces of a text. Something lies across each place where a part is to be cut; the middle is one long
        paragraph."""
        at, mark, across, long_at = 0, self.blocksize, itertools.cycle(ACROSS), size // 2
        while at < size:
            if long and at >= long_at:
                piece, long = self.paragraph(long), 0
            else:
                piece = self.cut(self.chance.choice((9, 200, 5000,
                    1 << 18))) + self.chance.choice(ENDS) + self.chance.choice(ODD)
            if at + len(piece) > mark - 8 > at:
                between, before = next(across)
                piece = piece[: mark - before - at].ljust(mark - before - at, b".") + between
                # (the part begins after what lies there, or a little later)
                mark += len(between) - before + self.blocksize
            elif at + len(piece) > mark:
                mark = at + len(piece) + self.blocksize
            at += len(piece)
            yield piece


def make_corpus(folder, sources, size, blocksize, long):
    """Three texts, the second with long paragraphs, and a fourth that both tables break."""
    folder.mkdir()
    texts = (("one.txt", 0.4, 0), ("two.txt", 0.3, long), ("three.txt", 0.2, 0), ("four.txt", 0.1, long // 8))
    for name, share, paragraph in texts:
        with open(folder / name, "wb") as file:
            file.writelines(Maker(sources, blocksize, name).pieces(int(share * size), paragraph))
    return sorted(map(str, folder.glob("*.txt")))


def own_spent():
    """The processor time of this process, and of those that it started and that have ended."""
    ended = resource.getrusage(resource.RUSAGE_CHILDREN)
    return time.process_time() + ended.ru_utime + ended.ru_stime


class Run(NamedTuple):
    seconds: float
    spent: float
    memory: "int | str"
    load: float


class Report:
    """The runs of each way over a corpus, and whether all found the same breaks: those of the first."""

    def __init__(self, size):
        self.size, self.wanted, self.failed, self.runs = size, None, False, {}

    def run(self, name, call, memory=lambda: "", spent=own_spent):
        start, before = time.perf_counter(), spent()
        found = call()
        run = Run(time.perf_counter() - start, spent() - before, memory(), os.getloadavg()[0])
        self.runs.setdefault(name, []).append(run)
        self.wanted = self.wanted or found
        self.failed = self.failed or found != self.wanted
        print(f"{'ok     ' if found == self.wanted else 'FAILED '} {name}: {self.speed(run):.0f} MB/s, {found[0]} breaks", flush=True)

    def speed(self, run):
        return self.size / run.seconds / 1e6

    def show(self):
        """Prints the middle run of each way, and the speeds of the slowest and the fastest."""
        print("\n| Way | MB/s | slowest, fastest | MB/s of processor time | MB a worker | load |\n|---|---|---|---|---|---|")
        for name, runs in self.runs.items():
            # (a copy, since `compare` depends on the order of the turns)
            ordered = sorted(runs)
            one = ordered[len(ordered) // 2]
            spent, ends = self.size / one.spent / 1e6, f"{self.speed(ordered[-1]):.0f}, {self.speed(ordered[0]):.0f}"
            print(f"| {name} | {self.speed(one):.0f} | {ends} | {spent:.0f} | {one.memory} | {one.load:.1f} |")
        print(flush=True)

    def compare(self, wanted):
        """Prints how many times as fast as another each way is that `wanted` names, by the middle one of the turns."""
        for name, other, least in wanted:
            ratios = sorted(two.seconds / one.seconds for one, two in zip(self.runs[name], self.runs[other]))
            found = statistics.median(ratios)
            self.failed = self.failed or found < least
            word = "ok     " if found >= least else "FAILED "
            print(f"{word} {name}: {found:.2f} times {other} ({ratios[0]:.2f} to {ratios[-1]:.2f}), {least} is asked for")
