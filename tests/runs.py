"""Shared by the scripts that run the program on files and stop it: random scripts, and checks of a
file."""
import harness
import oracle
import region

LOADERS = [b"app", b"ext", b"lib", b"web"]
# Loaders some of whose names need two slots of the journal.
LONG_LOADERS = [b"app", b"m" * 48, b"m" * 49, b"m" * 96]
TOO_LONG = b"m" * 97
CLASSES = [b"A", b"B", b"C", b"D", b"E", b"F"]


def define(loader, name, zeros):
    return harness.define(loader, harness.padded(name, zeros))


def some_loaders(rng):
    """The loaders that random lines name."""
    return rng.choice([LOADERS, LONG_LOADERS])


def some_line(rng, loaders):
    """A random line: mostly classes, of some sizes."""
    loader, name, chance = rng.choice(loaders), rng.choice(CLASSES), rng.random()
    if chance < 0.25:
        return b"loader " + loader
    if chance < 0.80:
        return define(loader, name, rng.choice([0, 8, 100, 900, 3000, 8000]))
    if chance < 0.86:
        return b"unload " + loader
    if chance < 0.90:
        return b"unloadall " + b" ".join(rng.sample(loaders, rng.choice([1, 2, 2, 3])))
    if chance < 0.95:
        return b"tighten " + loader
    return b"find %s %s" % (loader, name)


def is_change(line):
    return not line.startswith(b"find ")


FINDS = [b"find %s %s" % (loader, name) for loader in LOADERS + LONG_LOADERS[1:]
         for name in CLASSES]


def format_words(path, geometry):
    """The words with which the program makes a file of these sizes."""
    return ["format", path, "--top", str(geometry.top), "--roots", str(geometry.roots),
            "--slots", str(geometry.slots)]


def answers(cache, lines):
    """The replies to lines, and the status that a run of them ends with."""
    replies = [cache.answer(line) for line in lines]
    return replies, oracle.status_of(replies)


def state_in(path):
    """What a file stands for and its last number; if it isn't a cache, the verdict."""
    try:
        file = region.read(path)
    except (region.NotACache, region.Damaged) as verdict:
        return str(verdict), None
    return file.state(), file.number


def settle(checks, name, path, cache, line):
    """Checks a file after a run that ended early. The file holds what was acknowledged, which is
    the cache's; or that and the change of the line that was being run. The cache is left as the
    file is."""
    state, number = state_in(path)
    if line is not None and is_change(line) and number == cache.number + 1:
        cache.answer(line)
    holds = number == cache.number and state == region.state_of(cache.loaders)
    return checks.check(name, holds, f"the file holds number {number}, "
                        f"{cache.number} was acknowledged: {state!s:.200}")


def look_up(checks, name, program, path, cache):
    """Looks up each class of the file by the program, in a run of its own."""
    cache.reopened()
    got = harness.run(program, ["apply", path], FINDS)
    wanted, status = answers(cache, FINDS)
    return checks.check(name, got == (wanted, status, ""), f"got {got}, wanted {wanted}")


def tell(checks, name, program, path):
    """Checks and lists the file by the program, each in a run of its own."""
    file = region.read(path)
    checked = harness.run(program, ["check", path])
    listed = harness.run(program, ["list", path])
    good = checks.check(f"{name}, checked", checked == ([file.report().encode()], 0, ""),
                        f"got {checked}")
    return (checks.check(f"{name}, listed", listed == ([*file.listed()], 0, ""), f"got {listed}")
            and good)
