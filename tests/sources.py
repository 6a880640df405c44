#!/usr/bin/env python3
"""Checks the sources of the repository at the current folder: prints a line for each file with a
line of more than 100 columns, for each mutant whose old text doesn't occur exactly once in its
file, for each law that a crate passes on and no other cites, or the other way round, for each file
of lemmas that doesn't say what it serves, and for each file whose prose has a word that a common
one replaces; and last how many were checked: 'N passed, M failed'.

    tests/sources.py
"""
import re
import subprocess
import sys
from pathlib import Path

import harness

COLUMNS = 100
# What rt fmt keeps in one line: an import of one name, and an attribute.
UNBROKEN = re.compile(r"\s*(((pub|ghost) )*use [^,]*|#\[.*\])$")

PARTS = ("src", "specs", "proofs")
SCRIPTS = ("tests/*.py", "tests/*.sh", "tests/*.c", "tests/java/**/*", "tests/c/*", "bench/*",
           "c/*", "java/**/*", "examples/*.py", "examples/*/*.*", "tests/run", "tests/ci/*",
           "bin/*", ".ci/*")


def listed():
    """The files that git has, or would add: what else lies about is no source."""
    words = ["git", "ls-files", "--cached", "--others", "--exclude-standard"]
    told = subprocess.run(words, capture_output=True, check=True, text=True).stdout
    return {Path(line) for line in told.splitlines()}


LISTED = listed()


def columns():
    """No line of code, of a definition, of a proof or of a script has more than 100 columns."""
    parts = [f"crates/*/{part}/**/*.{kind}" for part in PARTS for kind in ("rt", "antt")]
    files = {path for form in (*parts, *SCRIPTS) for path in Path(".").glob(form)}
    for path in sorted(path for path in files & LISTED if path.is_file()):
        lines = enumerate(path.read_text().splitlines(), 1)
        long = [number for number, line in lines if len(line) > COLUMNS
                and not UNBROKEN.match(line)]
        yield not long, f"{path}: more than {COLUMNS} columns in line {', '.join(map(str, long))}"


def is_planted(edit, crate):
    """Whether each old text of an edit occurs exactly once in its file, as the pairs before it
    leave the file, and is replaced by another."""
    texts, file, old = {}, None, None
    for line in edit.read_text().splitlines():
        kind, _, text = line.partition(": ")
        if kind == "file":
            file = crate / text.strip()
            texts.setdefault(file, file.read_text() if file.is_file() else "")
        elif kind == "old":
            old = text
        elif line.startswith("new:"):
            if file is None or old is None or texts[file].count(old) != 1 or text == old:
                return False
            texts[file] = texts[file].replace(old, text)
            old = None
    return bool(texts) and old is None


def planted():
    """Each mutant, in must-fail/ and under mutants/, names text that is there."""
    for edit in sorted(
        [*Path("crates").glob("*/must-fail/*.edit"), *Path("mutants").glob("*/*.edit")]):
        yield (is_planted(edit, Path("crates") / edit.parts[1]),
               f"{edit}: its old text occurs once in its file, and the new one differs")


PROOFS = re.compile(r"^(?:pub )?use Rattle\.(cm_\w+)\.proofs\.?([\w.]*)\.\{([^}]*)\}$",
                    re.MULTILINE)
# What a crate passes on of its proofs, in proofs/Lib.antt; modules that are passed on whole.
PASSED_ON = re.compile(r"^pub use (\w+)\.\{([^}]*)\}$", re.MULTILINE)
WHOLE = re.compile(r"^pub mod (\w+)$", re.MULTILINE)


def cited_laws():
    """What proofs cite of the proofs of other crates, as pairs of a crate and a name, or of a crate
    and a module that is cited by its name."""
    for path in Path("crates").glob("*/*/**/*.*"):
        if path.suffix not in (".antt", ".rt") or path.parts[2] not in PARTS:
            continue
        text = path.read_text()
        for crate, module, names in PROOFS.findall(text):
            if crate != path.parts[1]:
                for name in [module] if module else names.split(","):
                    yield crate, name.split(" as ")[0].strip()
        for crate, name in re.findall(r"\b(cm_\w+)::proofs::([\w-]+)", text):
            if crate != path.parts[1]:
                yield crate, name


# Laws on blocks and free words that cm_pool passes on, and no crate cites. A change of cm_pool
# proves nearly everything above it anew, so they wait until it changes for another reason.
UNCITED = {("cm_pool", name) for name in (
    "Dyadic", "Places", "among-at", "chunk-word", "number-order", "pairs-before", "pairs-behind",
    "pairs-remove", "range-decides", "same_numbers", "words-decides")}


def laws():
    """Of a crate's proofs others cite exactly what its proofs/Lib.antt passes on."""
    cited = set(cited_laws())
    passed_on = set()
    for path in Path("crates").glob("*/proofs/Lib.antt"):
        text = path.read_text()
        crate = path.parts[1]
        passed_on |= {(crate, name.strip()) for _, names in PASSED_ON.findall(text)
                      for name in names.split(",")}
        passed_on |= {(crate, module) for module in WHOLE.findall(text)}
    for crate, name in sorted((cited | passed_on) - UNCITED):
        yield ((crate, name) in cited and (crate, name) in passed_on,
               f"{crate}: its proofs pass on {name}, and another crate cites it")


def names_of(crate):
    """The functions, types and definitions of a crate."""
    found = set()
    for path in (crate / "src").glob("**/*.rt"):
        found.update(re.findall(r"\b(?:fn|struct|enum|trait) (\w+)", path.read_text()))
    for path in (crate / "specs").glob("**/*.antt"):
        found.update(re.findall(r"^ *(?:(?:pub|abbrev|unfoldable|pattern|data|record) )+([\w-]+)",
                                path.read_text(), re.MULTILINE))
    return found


def lemmas():
    """The heading of each file of lemmas names functions, types or definitions that it serves."""
    for crate in sorted(Path("crates").iterdir()):
        there = names_of(crate)
        for path in sorted((crate / "proofs").glob("*.antt")):
            if path.stem in ("Lib", "WorkedExamples"):
                continue
            heading = re.match(r"(?:--.*\n)*", path.read_text())[0]
            served = re.search(r"^-- (?:For|On) (`(?:.|\n)*)", heading, re.MULTILINE)
            named = re.findall(r"`([\w:-]+)`", served[1]) if served else []
            yield (bool(named) and all(name.split("::")[-1] in there for name in named),
                   f"{path}: its heading names functions or definitions that are there")


# Words that prose does without, each with what to write.
WORDS = (
    (r"behind", "after, following, next to"),
    (r"so many", "N, that many, as many as"),
    (r"exactly where", "exactly if, exactly when"),
    (r"(?:go|goes|going|carry|carries) on", "continues, follows"),
    (r"planted|audit", "mutant"),
    (r"moved over|moving over|moves over", "upgraded"),
    (r"(?:un)?settle[sd]?", "durable"),
    (r"loose", "unsynced"),
    (r"what is so|is what is so", "what holds"),
)
BANNED = [(re.compile(rf"\b(?:{word})\b", re.IGNORECASE), instead) for word, instead in WORDS]
COMMENTS = {".rt": re.compile(r"(?:^|\s)//[/!]?\s(.*)"), ".antt": re.compile(r"(?:^|\s)--\s(.*)"),
            ".sh": re.compile(r"(?:^|\s)#\s(.*)"), ".md": re.compile(r"(.*)")}


def prose(path):
    """The comments of a source, or the lines of a document, without what stands in backticks."""
    found = (COMMENTS[path.suffix].search(line) for line in path.read_text().splitlines())
    return "\n".join(re.sub(r"`[^`]*`", "", text[1]) for text in found if text)


def words():
    """No comment and no document has a word that a common one replaces."""
    parts = [f"crates/*/{part}/**/*.{kind}" for part in PARTS for kind in ("rt", "antt")]
    forms = (*parts, "tests/**/*.sh", "bench/*.sh", "docs/*.md", "*.md", "crates/*.md")
    for path in sorted({path for form in forms for path in Path(".").glob(form)} & LISTED):
        text = prose(path)
        found = [f"{bad[0]} (write {instead})" for word, instead in BANNED
                 for bad in word.finditer(text)]
        yield not found, f"{path}: {', '.join(found)}"


def main():
    checks = harness.Checks()
    checks.check_all([columns, planted, laws, lemmas, words])
    return checks.finish()


if __name__ == "__main__":
    sys.exit(main())
