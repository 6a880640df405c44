#!/usr/bin/env python3
"""Has threads define and find classes in one file at once, move them and unload them, and checks
their replies and what the file holds then.

    tests/soak.py PROGRAM BENCH THREADS SECONDS

Each thread has loaders of its own, so oracle.py gives the replies to its calls independently of the
others, except for the numbers, which have to be 1 to the last, each once, and to rise in each
thread, and for `tighten`: whether there is a chunk to move to depends on the others, and what can
be seen stays the same. The file, read by region.py, checked and listed by the program, has to hold
what all threads have in the end. It is so small that checkpoints come again and again.
"""
import sys

import harness
import oracle
import region
import runs

# There is always room for all classes of all loaders.
GEOMETRY = oracle.Geometry(top=3, roots=256, slots=512)
CLASSES = [harness.padded(name, zeros) for name in runs.CLASSES for zeros in (0, 100, 3000)]
HEX = [data.hex().encode() for data in CLASSES]
NAMES = [name for name in runs.CLASSES for _ in range(3)]


NO_MOVE = b"refused 8"


def loaders_of(asked):
    """The loaders that a call names."""
    verb, *words = asked.split(b" ")
    return words if verb == b"unloadall" else words[:1]


def line_of(asked):
    """A call as a line of a script: a class is given by its place in the list."""
    verb, loader, *rest = asked.split(b" ")
    if verb == b"define":
        return b"define %s %s" % (loader, HEX[int(rest[0])])
    if verb == b"find":
        return b"find %s %s" % (loader, NAMES[int(rest[0])])
    return asked


def may_move(cache, asked):
    """Whether a call may move the records of a loader."""
    verb, loader = asked.split(b" ")[:2]
    return verb == b"tighten" and loader in cache.loaders


def kind_of(reply):
    """A reply of oracle.py as the threads print it, and without its number."""
    words = reply.split(b" ")
    if words[0] == b"class":
        return b"words " + words[-1]
    return b" ".join(words[:2]) if words[0] == b"refused" else words[0]


class Told:
    """The output of one thread."""

    def __init__(self, lines):
        self.calls = [line.split(b": ") for line in lines]
        self.numbers = [int(answer[3:]) for _, answer in self.calls if answer.startswith(b"ok ")]
        self.loaders = {loader for asked, _ in self.calls for loader in loaders_of(asked)}

    def wrong(self, cache):
        """The first call whose reply isn't this cache's; the cache is left as the thread left its
        loaders."""
        for asked, answer in self.calls:
            kind = b"ok" if answer.startswith(b"ok ") else answer
            if may_move(cache, asked) and kind in (b"ok", NO_MOVE):
                continue
            due = kind_of(cache.answer(line_of(asked)))
            if kind != due:
                return f"{asked}: {answer}, wanted {due}"
        return None


def check_threads(checks, threads):
    """What all of them left, by loader."""
    state = {}
    for at, told in enumerate(threads):
        cache = oracle.Cache(GEOMETRY)
        wrong = told.wrong(cache)
        checks.check(f"thread {at}: its answers", wrong is None, f"{wrong}")
        checks.check(f"thread {at}: its numbers rise", told.numbers == sorted(told.numbers))
        checks.check(f"thread {at}: its loaders are its own",
                     told.loaders == {b"t%d" % (2 * at), b"t%d" % (2 * at + 1)}, f"{told.loaders}")
        state.update(region.state_of(cache.loaders))
    return state


def parse(lines):
    """The output of each thread, and the last line."""
    *body, last = lines
    threads = []
    for line in body:
        if line == b"thread":
            threads.append([])
        else:
            threads[-1].append(line)
    return [Told(lines) for lines in threads], last


def new_file(checks, program, path):
    made = harness.run(program, runs.format_words(path, GEOMETRY))
    checks.check("format", made == ([b"ok"], 0, ""), f"{made}")


def soak(checks, program, bench, path, count, seconds):
    new_file(checks, program, path)
    lines, *ends = harness.run(
        bench, ["soak", path, "--threads", str(count), "--seconds", str(seconds)],
        harness.stream_of(CLASSES), seconds=harness.TIME_LIMIT + seconds)
    checks.check("the soak ends", ends == [0, ""], f"{ends!s:.200}")
    threads, last = parse(lines)
    checks.check("all threads have output", len(threads) == count)
    state = check_threads(checks, threads)
    numbers = sorted(number for told in threads for number in told.numbers)
    most = len(numbers)
    checks.check("each number is returned once", numbers == [*range(1, most + 1)])
    checks.check("what was counted", last == b"handed %d committed %d of_passes %d missing 0"
                 % (most, most, most), f"{last}")
    checks.check("the file", runs.state_in(path) == (state, most))
    runs.tell(checks, "the file", program, path)
    calls = sum(len(told.calls) for told in threads)
    print(f"{count} threads made {calls} calls in {seconds} s; {most} were stored")


def main(program, bench, count, seconds):
    checks = harness.Checks()
    with harness.new_folder() as folder:
        soak(checks, program, bench, f"{folder}/cache", count, seconds)
    return checks.finish()


if __name__ == "__main__":
    sys.exit(main(sys.argv[1], sys.argv[2], int(sys.argv[3]), int(sys.argv[4])))
