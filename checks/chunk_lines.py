"""The lines and objects of `lbk chunk` and the chunks of the definition, over random texts, sizes and ranges, for
worked_rows.

The cuts of a text are taken from the lines of `lbk segment`; what a chunk is, is said here once more, slowly."""

import json
import random
import socket
import subprocess
from itertools import takewhile
from typing import NamedTuple

from checks.files_and_pipes.place import words_of
from checks.program import run as run_program

TEXTS = 500
PARTS = ["\"", "\\", "\0", "\x7f", "\x1f ", "\t", "a", "bc", "def ", " ", "  ", ",", "- ", "\n", "\n\n", "\r\n", "(",
    "12", "é", "カ", "タ", "（", "กั", "🀀🏻", "\u2028", "-1)"]


class Cut(NamedTuple):
    """A break inside no word, and how many words are before it."""

    at: int
    words: int
    kind: str
    rule: str


class Sizes(NamedTuple):
    most: int
    words: int
    least: int
    overlap: int

    def options(self):
        given = {name: it for name, it in self._asdict().items() if name != "words" or it}
        return [word for name, it in given.items() for word in (f"--{name}", str(it))]


def cuts_of(lines):
    """The cuts of a text by its lines of `lbk segment`."""
    parts = [line.split() for line in lines]
    words = [(int(it[1]), int(it[2])) for it in parts if it[0] == "W"]
    ends = [(int(it[2]), it[3], it[4]) for it in parts if it[0] == "S"]
    inside = lambda at: any(start < at < end for start, end in words)
    return [Cut(at, sum(end <= at for _, end in words), kind, rule) for at, kind, rule in ends if not inside(at)]


def chunks(cuts, sizes):
    """The chunks of a text with these cuts: where each starts and ends, its words, and the kind and the rule at its
    end."""
    here, told, found = Cut(0, 0, "", ""), 0, []
    fits = lambda start, it: it.at - start.at <= sizes.most and (not sizes.words
        or it.words - start.words <= sizes.words)
    while ahead := [it for it in cuts if it.at > told]:
        good = list(takewhile(lambda it: fits(here, it), ahead))
        early = [it for it in good if it.kind == "Must" and it.at - told >= sizes.least]
        end = ahead[0] if not good else good[-1] if len(good) == len(ahead) or not early else early[-1]
        found.append((here.at, end.at, end.words - here.words, end.kind, end.rule))
        again = lambda it: end.at - it.at <= min(sizes.overlap, (end.at - here.at) // 2)
        behind = [it for it in cuts if it.at > end.at]
        starts = [it for it in cuts if here.at < it.at < end.at and again(it) and behind and fits(it, behind[0])]
        here, told = starts[0] if starts else end, end.at
    return found


def random_sizes(rng):
    most = rng.choice([1, 2, 3, 5, 8, 12, 20, 40])
    return Sizes(most, rng.choice([0, 0, 1, 2, 4]), rng.randint(0, most), rng.randint(0, most // 2))


def objects(lines):
    """What the lines hold, each a text of JSON."""
    return [json.loads(it) for it in lines.decode().split("\n")[:-1]]


def in_packets(place, words, text, rng):
    """The program's output for a text in pieces of these sizes."""
    ours, theirs = socket.socketpair(socket.AF_UNIX, socket.SOCK_SEQPACKET)
    with ours, theirs:
        while text:
            size = rng.choice([1, 2, 3, 7, 64])
            ours.send(text[:size])
            text = text[size:]
        ours.shutdown(socket.SHUT_WR)
        return subprocess.run([place.program, *words], stdin=theirs, capture_output=True, cwd=place.folder,
            check=True).stdout


def chunk_lines(place):
    """Each text is cut whole, in pieces, and in ranges of its bytes."""
    rng = random.Random(17)
    for _ in range(TEXTS):
        text = "".join(rng.choices(PARTS, k=rng.randint(0, 40))).encode()
        sizes, profile = random_sizes(rng), ["--profile", rng.choice("12")]
        cuts = cuts_of(run_program([place.program, *words_of("segment", more=profile)], text,
            cwd=place.folder).out.decode().splitlines())
        found = chunks(cuts, sizes)
        words = words_of("chunk", more=[*sizes.options(), *profile])
        wanted = lambda its: "".join("C {} {} {} {} {}\n".format(*it) for it in its).encode()
        what = f"chunk {' '.join(words[9:])}: {text!r}"
        place.row(what, words, text, 0, wanted(found))
        place.tally.equal(f"{what} in pieces", in_packets(place, words, text, rng), wanted(found))
        told = [{"start": it[0], "end": it[1], "words": it[2], "text": text[it[0] : it[1]].decode()} for it in found]
        place.tally.equal(f"{what} --text", objects(run_program([place.program, *words, "--text"], text,
            cwd=place.folder).out), told)
        place.tally.equal(f"{what} --text in pieces", objects(in_packets(place, [*words, "--text"], text, rng)), told)
        middle = rng.randint(0, len(text))
        for part, its in (("--to", [it for it in found if it[0] < middle]),
            ("--from", [it for it in found if it[0] >= middle])):
            place.row(f"{what} {part} {middle}", [*words, part, str(middle)], text, 0, wanted(its))
