#!/usr/bin/env python3
"""Has threads run random scripts on one file, each every so many lines of them, some on a device
that fails, and checks the replies and what the file holds then.

    tests/script_threads.py BENCH PROGRAM SCRIPTS SEED

Which thread's line comes next is chance, but the numbers of the accepted commands tell it:
oracle.py has to accept them in this order, each with its number. Any other reply has to be the
oracle's at some moment between the two commands of the same thread around it. The file, read by
region.py, checked and listed by the program, has to hold all commands, or, if a device call failed,
a beginning of them with all that were stored. With one thread the replies are those of `apply`.
Where a loader's records may move to depends on which chunks are known to be free by then, so
`tighten` may be refused for that.
"""
import random
import sys

import harness
import oracle
import region
import runs

# There is always room for all classes of all loaders.
GEOMETRY = oracle.Geometry(top=3, roots=256, slots=2048)
THREADS = [1, 2, 4, 16]
MOST_LINES = 120
# One in this many scripts runs on a device that fails.
FAILING = 3
NO_MOVE, BROKEN = b"refused 8", b"refused 10"


def reply_of(cache, line):
    """The oracle's reply to a line, as the threads print it."""
    words = cache.answer(line).split(b" ")
    if words[0] == b"class":
        return b"words " + words[-1]
    return b" ".join(words[:2])


def accept(cache, line):
    """Accepts a command; one that only moves records changes nothing that can be seen."""
    if line.startswith(b"tighten "):
        if line[8:] in cache.loaders:
            cache.accept(("move",), {})
    else:
        cache.answer(line)


def is_possible(cache, line, answer):
    """Whether the reply to a line that isn't accepted may be this one, if the cache is so."""
    if line.startswith(b"tighten ") and line[8:] in cache.loaders:
        return answer == NO_MOVE
    return reply_of(cache.copy(), line) == answer


class Run:
    """The replies of a run: those to each thread's lines, and those accepted, by number."""

    def __init__(self, lines, output):
        *body, self.counts = output
        self.threads = []
        for line in body:
            if line == b"thread":
                self.threads.append([])
            else:
                at, answer = line.split(b": ")
                self.threads[-1].append((lines[int(at) - 1], answer))
        self.stored = 0
        self.accepted = {}
        for thread in self.threads:
            for line, answer in thread:
                word, _, number = answer.partition(b" ")
                if word in (b"ok", b"unsure"):
                    self.accepted[int(number)] = line
                if word == b"ok":
                    self.stored = max(self.stored, int(number))

    def states(self, checks, name):
        """The cache after each number of accepted commands; None if the oracle doesn't accept
        them."""
        caches = [oracle.Cache(GEOMETRY)]
        for number in range(1, len(self.accepted) + 1):
            if not checks.check(f"{name}: number {number} is returned", number in self.accepted):
                return None
            cache = caches[-1].copy()
            accept(cache, self.accepted[number])
            if not checks.check(f"{name}: number {number} is accepted", cache.number == number,
                                f"{self.accepted[number]!s:.100}"):
                return None
            caches.append(cache)
        return caches

    def wrong(self, caches, is_failing):
        """The first reply that no order of the threads' lines explains."""
        for thread in self.threads:
            numbers = [int(answer.split(b" ")[1]) if answer.startswith((b"ok ", b"unsure ")) else 0
                       for _, answer in thread]
            if [n for n in numbers if n] != sorted(n for n in numbers if n):
                return f"the numbers of a thread fall: {numbers}"
            low = 0
            for at, (line, answer) in enumerate(thread):
                if numbers[at]:
                    low = numbers[at]
                    continue
                high = next((n - 1 for n in numbers[at:] if n), len(caches) - 1)
                if is_failing and answer == BROKEN and runs.is_change(line):
                    continue
                if not any(is_possible(cache, line, answer) for cache in caches[low:high + 1]):
                    return f"{line!s:.100}: {answer}"
        return None


class Scripts:
    def __init__(self, bench, program, folder):
        self.bench, self.program = bench, program
        self.path = f"{folder}/cache"
        self.calls = harness.library("calls")

    def check_file(self, checks, name, run, caches, is_failing):
        state, number = runs.state_in(self.path)
        if not checks.check(f"{name}: the file", number is not None, f"{state}"):
            return
        least = run.stored if is_failing else len(caches) - 1
        checks.check(f"{name}: the file holds a beginning of the commands, with those stored",
                     least <= number < len(caches)
                     and state == region.state_of(caches[number].loaders),
                     f"number {number}, {run.stored} stored, {len(caches) - 1} accepted")
        runs.tell(checks, f"{name}: the file", self.program, self.path)

    def check(self, checks, rng, name):
        loaders = runs.some_loaders(rng)
        lines = [runs.some_line(rng, loaders) for _ in range(rng.randrange(1, MOST_LINES))]
        threads = rng.choice(THREADS)
        is_failing = rng.randrange(FAILING) == 0
        harness.remove(self.path)
        harness.run(self.program, runs.format_words(self.path, GEOMETRY))
        env = {}
        if is_failing:
            env = {"LD_PRELOAD": self.calls, "FAIL": str(rng.randrange(5, 200)),
                   "STORES": str(rng.randrange(0, 64))}
        output, status, errors = harness.run(
            self.bench, ["script", self.path, "--threads", str(threads)], lines, env=env)
        if is_failing and status == 3 and not output:
            return  # it failed before the cache was open
        if not checks.check(f"{name}: it ends", (status, errors) == (0, ""), f"{errors}"):
            return
        run = Run(lines, output)
        checks.check(f"{name}: all lines have replies",
                     sum(map(len, run.threads)) == len(lines) and len(run.threads) == threads)
        caches = run.states(checks, name)
        if caches is None:
            return
        checks.check(f"{name}: the replies", not (wrong := run.wrong(caches, is_failing)), wrong)
        self.check_file(checks, name, run, caches, is_failing)


def main(bench, program, scripts, seed):
    checks = harness.Checks()
    rng = random.Random(seed)
    with harness.new_folder() as folder:
        tried = Scripts(bench, program, folder)
        for at in range(scripts):
            tried.check(checks, rng, f"script {at} of seed {seed}")
    return checks.finish()


if __name__ == "__main__":
    sys.exit(main(sys.argv[1], sys.argv[2], int(sys.argv[3]), int(sys.argv[4])))
