#!/usr/bin/env python3
"""Compares the proved check with the peer on fresh random files, outside the gate: the peer's generator makes them from a seed, both answer them, and
every line is compared. It prints how many files there were, how many were accepted and how many were refused under each number. Where the two
differ it prints both answers, keeps the file, and ends with status 1.

    tools/build.sh check_vectors && (cd tests/peer && cargo build --release --offline)
    tests/compare/run.py [--count N] [--seed S]

Files are made in batches, so that little memory is used; batch k has the seed S + k.

With --limits each file is asked under four settings of document 02's limits, reading and the subtype question too, and the program is limit_vectors.
Besides, request (xi)'s claim is tested on the program's own answers: for every two settings of one file, both in range, of which one is at least the
other, all lines are the same unless the file is 3 or 5 under the smaller; such a file is neither 1 nor 2 under the larger and, if it was 5, nor 3 or 4.

With --names the files are about the names of struct literals, with --endless about loops that never end, with --levels about names in inner
blocks, with --pairs about subtype questions on large types. The sum of compared pairs is a line of every answer.

With --tallies the expressions of each file are tallied, in buffers that are long enough or too short, and the program is tally_vectors. Most files are
accepted and have equal types under several numbers.

With --pages the rows of each file are printed, into a buffer that is long enough or too short, and the program is page_vectors. Every byte of the
buffer is compared. Most files are accepted, and many have full pages or one row more or fewer."""
import argparse
import collections
import itertools
import os
import subprocess
import sys

ROOT = os.path.join(os.path.dirname(os.path.abspath(__file__)), "..", "..")
SETTINGS = 4  # cases that genlimits makes of each file
Question = collections.namedtuple("Question", "make batch program unpack line")


def answers(command, packed):
    """What a program prints for each packed file, a character for each byte."""
    out = subprocess.run(command, input=packed, stdout=subprocess.PIPE, check=True).stdout.decode("latin-1")
    return out.split("--\n")[:-1]


def number(packed, at):
    return int.from_bytes(packed[at:at + 4], "little")


def unpack(packed):
    """Each file; no setting."""
    at = 0
    while at < len(packed):
        length = number(packed, at)
        yield packed[at + 4:at + 4 + length], None
        at += 4 + length


def unpack_set(many):
    """Each file with its setting, as many numbers: parts, depth and the lengths of the buffers that are lent for the answer."""
    def unpacked(packed):
        at, head = 0, 4 * (1 + many)
        while at < len(packed):
            length = number(packed, at)
            yield packed[at + head:at + head + length], tuple(number(packed, at + 4 * k) for k in range(1, 1 + many))
            at += head + length
    return unpacked


CHECK = Question("gen", "batch", "check_vectors", unpack, 0)
NAMES = CHECK._replace(make="gennames")
ENDLESS = CHECK._replace(make="genendless")
LEVELS = CHECK._replace(make="genlevels")
PAIRS = CHECK._replace(make="genpairs")
LIMITS = Question("genlimits", "limitbatch", "limit_vectors", unpack_set(2), 2)
TALLIES = Question("gentallies", "tallybatch", "tally_vectors", unpack_set(4), 0)
PAGES = Question("genpages", "pagebatch", "page_vectors", unpack_set(3), 0)


def refusal(said, question):
    """The check's number."""
    return int(said.split("\n")[question.line].split(" ")[0])


def in_range(setting):
    return 1 <= setting[0] <= 200 and 1 <= setting[1] <= 100


def pairs(settings):
    """Two of one file's settings, both in range, the first at most the second; two equal settings once."""
    for i, j in itertools.combinations(range(len(settings)), 2):
        for less, more in ((i, j), (j, i)):
            ordered = all(a <= b for a, b in zip(settings[less], settings[more]))
            if ordered and in_range(settings[less]) and in_range(settings[more]):
                yield less, more
                break


def claim_fails(less, more):
    """Request (xi)'s claim on what is said under a smaller and a larger setting."""
    small, large = refusal(less, LIMITS), refusal(more, LIMITS)
    if small == 3:
        return large in (1, 2, 25)
    if small == 5:
        return large in (1, 2, 3, 4, 25)
    return less != more


def test_claim(cases, found, counts):
    """Tests the claim on every file, counts pairs and moved files; gives the first pair that fails."""
    for start in range(0, len(cases), SETTINGS):
        moved = False
        settings = [setting for _, setting in cases[start:start + SETTINGS]]
        for less, more in pairs(settings):
            said = found[start + less], found[start + more]
            if claim_fails(*said):
                return start + less, start + more
            counts["pairs"] += 1
            moved |= refusal(said[0], LIMITS) in (3, 5) and refusal(said[1], LIMITS) not in (3, 5)
        counts["moved"] += moved
    return None


def under(setting):
    if not setting:
        return ""
    parts, depth, *lengths = setting
    lent = ("", ", a page of {} bytes", ", tallies of {} and {} numbers")[len(lengths)].format(*lengths)
    return f" under parts {parts} and depth {depth}{lent}"


def compare(given, question, seed, many, counts):
    """Compares one batch; gives what is wrong, if anything is."""
    packed = subprocess.run([given.peer, question.make, str(seed), str(many)], stdout=subprocess.PIPE, check=True).stdout
    cases = list(question.unpack(packed))
    right, found = answers([given.peer, question.batch], packed), answers([given.program], packed)
    for i, (file, setting) in enumerate(cases):
        said = found[i] if i < len(found) else "no answer\n"
        if said != right[i]:
            open(given.keep, "wb").write(file)
            return f"seed {seed}, file {i}{under(setting)}, kept in {given.keep}\nthe peer:\n{right[i]}the program:\n{said}"
        counts[refusal(said, question)] += 1
        counts["rows"] += said.count("\n") - 2 - question.line  # without the answer and the pairs
    if len(found) != len(cases):
        return f"seed {seed}: {len(cases)} files, {len(found)} answers\n"
    failed = test_claim(cases, found, counts) if given.limits else None
    if failed:
        open(given.keep, "wb").write(cases[failed[0]][0])
        told = "".join(f"file {i}{under(cases[i][1])}:\n{found[i]}" for i in failed)
        return f"seed {seed}, the claim fails, the file is kept in {given.keep}\n{told}"
    return None


def main():
    words = argparse.ArgumentParser(description="Compares the proved check with the peer on fresh random files.")
    words.add_argument("--count", type=int, default=10000, help="how many files (10000)")
    words.add_argument("--seed", type=int, default=1000, help="the seed of the first batch (1000)")
    words.add_argument("--batch", type=int, default=2000, help="files in a batch (2000)")
    sorts = words.add_mutually_exclusive_group()
    sorts.add_argument("--limits", action="store_true", help="ask each file under four settings of the limits")
    sorts.add_argument("--names", action="store_true", help="files about the names of struct literals")
    sorts.add_argument("--endless", action="store_true", help="files about loops that never end")
    sorts.add_argument("--levels", action="store_true", help="files about names in inner blocks")
    sorts.add_argument("--pairs", action="store_true", help="files about subtype questions on large types")
    sorts.add_argument("--tallies", action="store_true", help="tallies of the expressions of each file")
    sorts.add_argument("--pages", action="store_true", help="a printed page of the rows of each file")
    words.add_argument("--program", help="target/bin/check_vectors, with --limits limit_vectors, with --tallies tally_vectors, with --pages page_vectors")
    words.add_argument("--peer", default=os.path.join(ROOT, "tests", "peer", "target", "release", "oat_peer"), help="the peer's program")
    words.add_argument("--keep", default="different.oat", help="where a file that differs is kept (different.oat)")
    given = words.parse_args()
    asked = ((given.limits, LIMITS), (given.names, NAMES), (given.endless, ENDLESS), (given.levels, LEVELS), (given.pairs, PAIRS),
             (given.tallies, TALLIES), (given.pages, PAGES), (True, CHECK))
    question = next(question for chosen, question in asked if chosen)
    given.program = given.program or os.path.join(ROOT, "target", "bin", question.program)
    counts, done = collections.Counter(), 0
    while done < given.count:
        many = min(given.batch, given.count - done)
        wrong = compare(given, question, given.seed + done // given.batch, many, counts)
        if wrong:
            print(wrong, end="")
            return 1
        done += many
    settings = f", each under {SETTINGS} settings" if given.limits else ""
    rows = "" if given.tallies or given.pages else f", with {counts['rows']} rows"
    print(f"{done} files from seed {given.seed}{settings}: every line the same; {counts[0]} accepted{rows}")
    print("refused: " + ", ".join(f"{counts[n]} under {n}" for n in range(1, 26) if counts[n]))
    if given.limits:
        print(f"the claim holds for {counts['pairs']} pairs of settings; {counts['moved']} files are 3 or 5 under the smaller setting alone")
    return 0


if __name__ == "__main__":
    sys.exit(main())
