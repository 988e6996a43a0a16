"""Checks the pages alone, in seconds.

Each line of a program that README.md or a crate's page shows must be a line of a crate that the gate proves, each line of rules
that docs/rules.md shows one of rules/, each contract that a crate's page quotes must be in src/, and the links, files, crates and
commands that pages name must exist. A crate's pages are the files .md in its folder. Each must-fail edit must be one that can be
made: its old text stands exactly once in its file. The last line is 'pages: N passed, M failed'.
"""

import functools
import os
import re

import crates
import mustfail

# The crates that programs of the pages are taken from.
CALLERS = ("lrlex_examples",)
FENCE = re.compile(r"^```(.*)\n((?:(?!```).*\n)*)```", re.M)
LINK = re.compile(r"\[[^\]\n]*\]\(([^()\s]+)\)")
QUOTED = re.compile(r"`([^`\n]+)`")
HEADING = re.compile(r"^#+ +(.*?) *#*$", re.M)
# Pages of what was: they name what may be gone.
HISTORY = ("CHANGELOG.md", "bench/history.md")
# Words of a path that stand for others.
PLACEHOLDERS = {"NAME", "CRATE", "CMD", "FILE", "FOLDER", "PATH", "MODULE"}
# The pages' short words for what contracts name at length.
SHORT = {
    "L.StorageT.number": "number",
    "L.LexemeT.seen": "seen",
    "items_bynumberseen": "items_by..",
    "self.now": "S",
    "self.old": "S",
    "self.new": "S'",
    ",)": ")",
}


@functools.lru_cache(maxsize=None)
def text_of(path):
    """The text of a file of the repository."""
    with open(f"{crates.TOP}/{path}", encoding="utf-8") as it:
        return it.read()


@functools.lru_cache(maxsize=None)
def tree():
    """The files and folders of the repository, by their paths in it, without what is built."""
    found_ = []
    for at, folders, files in os.walk(crates.TOP):
        folders[:] = sorted(it for it in folders if it not in ("out", ".git", "__pycache__", "dist", "target"))
        found_ += [os.path.relpath(f"{at}/{it}", crates.TOP) for it in [*folders, *sorted(files)]]
    return found_


@functools.lru_cache(maxsize=None)
def known_paths():
    """The same as a set."""
    return {*tree()}


def found(*patterns):
    """The files of the repository that fit one of these patterns, in which * stands for all but a slash and ** for all."""
    parts = [re.escape(it).replace(r"\*\*/", "(.*/)?").replace(r"\*", "[^/]*") for it in patterns]
    return [it for it in tree() if any(re.fullmatch(part, it) for part in parts)]


def fences(page, *kinds):
    """The texts in the page's fences of these kinds."""
    return [text for kind, text in FENCE.findall(text_of(page)) if kind in kinds]


def lines_of(texts):
    """The lines of these texts that aren't blank."""
    return [line for text in texts for line in text.splitlines() if line.strip()]


def not_shown(page):
    """The lines of the page's programs that are in no crate which programs are taken from. The `main` of a page may be `pub` there."""
    files = [it for name in CALLERS for it in found(f"crates/{name}/src/**/*.rt", f"crates/{name}/specs/**/*.antt")]
    known = {line for it in files for line in text_of(it).splitlines()}
    known |= {line.removeprefix("pub ") for line in known if line.startswith("pub fn main(")}
    return [line for line in lines_of(fences(page, "rust", "antt")) if line not in known]


def bare(text):
    """The text without comments, white space and commas before a parenthesis, with the pages' short words."""
    text = re.sub(r"^ *//.*", "", text, flags=re.M).replace(" ", "").replace("\n", "")
    for long, short in SHORT.items():
        text = text.replace(long, short)
    return text


def quote_of(line):
    """A line of a quoted contract as src/ has it, bare."""
    line = re.sub(r"^fn [A-Za-z]*::", "fn ", line)
    return bare(re.sub(r"^  (ensures|requires) *([a-z_]*): (.*)$", r"\1 \2 {\3}", line))


def not_quoted(page, name):
    """The lines of the page's contracts that are in src/ neither of the crate nor of those that it lists."""
    listed = crates.read()
    names = [name, *[it for it in listed[name].needs if it in listed]]
    source = bare("".join(text_of(it) for one in names for it in found(f"crates/{one}/src/**/*.rt")))
    return [line for line in lines_of(fences(page, "text")) if quote_of(line) not in source]


def slug(heading):
    """The anchor of a heading."""
    return re.sub(r"[^\w\- ]", "", re.sub(r"\[([^\]]*)\]\([^)]*\)", r"\1", heading).lower()).replace(" ", "-")


def dead_links(page):
    """The page's links into the repository that lead to no file or to no heading."""
    dead = []
    for link in LINK.findall(FENCE.sub("", text_of(page))):
        if re.match(r"[a-z]+:", link):
            continue
        path, _, anchor = link.partition("#")
        to = os.path.normpath(os.path.join(os.path.dirname(page), path)) if path else page
        if not os.path.exists(f"{crates.TOP}/{to}"):
            dead.append(f"link {link}: there is no {to}")
        elif anchor and anchor not in [slug(it) for it in HEADING.findall(FENCE.sub("", text_of(to)))]:
            dead.append(f"link {link}: {to} has no such heading")
    return dead


def words_of(page):
    """The words that the page sets as code: in backquotes, and in fences that are no program and no contract."""
    inline = [it for it in QUOTED.findall(FENCE.sub("", text_of(page)))]
    blocks = [line for kind, text in FENCE.findall(text_of(page)) if kind in ("", "sh", "console") for line in text.splitlines()]
    return [(it, text) for text in inline + blocks for it in re.findall(r"[^\s`'\"<>|;,()=]+", text)]


def is_there(word):
    """Whether a word that looks like a file's path in the repository is one. What looks like none is."""
    word = word.rstrip(".:")
    first = word.split("/")[0]
    if not re.fullmatch(r"[\w./-]+", word) or ".." in word or word.startswith("/") or {*re.findall(r"[A-Z]+", word)} & PLACEHOLDERS:
        return True
    places = [""]
    if "/" not in word:
        return not re.search(r"\w\.(md|sh|py)$", word) or bool(found(f"**/{word}"))
    if "/out" in word or first in (".git", "out"):
        return True
    if first in ("src", "specs", "proofs", "must-fail", "c", "data"):
        places = [f"crates/{it}/" for it in crates.read()]
    elif first.startswith("lrlex_"):
        places = ["crates/"]
    elif first == "crates":
        if not word.split("/")[1].startswith("lrlex"):
            # the reader's own
            return True
    elif first != "." and first not in tree():
        return True
    word = word.removeprefix("./").rstrip("/")
    return any(f"{at}{word}{end}" in known_paths() for at in places for end in ("", ".antt", ".rt"))


def not_there(page, commands):
    """What the page names that isn't there: files, and commands of ./dev."""
    if page in HISTORY:
        return []
    lost = [f"there is no {word}" for word, _ in words_of(page) if not is_there(word)]
    for text in {text for _, text in words_of(page)}:
        lost += [f"./dev has no {it}" for it in re.findall(r"\./dev ([a-z]\w*)", text) if commands and it not in commands]
    return list(dict.fromkeys(lost))


def not_mapped():
    """The crates that CONTRIBUTING.md's map leaves out."""
    named = text_of("CONTRIBUTING.md")
    return [f"{it} is not named" for it in crates.read() if f"`{it}`" not in named and f"`crates/{it}`" not in named]


def all_checks(commands):
    """Each check by its name: what it finds, and why there is nothing to check, if so."""
    pages = found("*.md", "docs/*.md", "bench/*.md", "tests/*.md", "crates/*/*.md")
    of_crates = {it: os.path.basename(os.path.dirname(it)) for it in found("crates/*/*.md")}
    for page in ["README.md", *of_crates]:
        if fences(page, "rust") or page.endswith(("README.md", "/CALLING.md")):
            yield f"programs of {page}", not_shown(page), "" if fences(page, "rust") else "it shows no program"
    known = {line for it in found("rules/*.l") for line in text_of(it).splitlines()}
    yield "rules of docs/rules.md", [it for it in lines_of(fences("docs/rules.md", "lex")) if it not in known], ""
    for name in dict.fromkeys(of_crates.values()):
        with_quotes = [page for page, of in of_crates.items() if of == name and fences(page, "text")]
        for page in with_quotes:
            yield f"contracts of {page}", not_quoted(page, name), ""
        if not with_quotes:
            yield f"contracts of crates/{name}", [], "its pages quote none"
    for page in pages:
        yield f"names in {page}", dead_links(page) + not_there(page, commands), ""
    for name in crates.read():
        if found(f"crates/{name}/must-fail/*.md"):
            yield f"edits of crates/{name}", mustfail.not_made(name), ""
    if os.path.exists(f"{crates.TOP}/CONTRIBUTING.md"):
        yield "map of CONTRIBUTING.md", not_mapped(), ""


def main(commands=()):
    """Does all of it, and prints what it finds. Gives how many checks passed and failed."""
    passed = failed = 0
    for name, faults, why in all_checks(commands):
        if not faults and not why:
            passed += 1
            print(f"{name}: passed")
            continue
        failed += 1
        print(f"{name}: FAILED, {why or len(faults)}{'' if why else ' not found:'}")
        for it in faults:
            print(f"    {it}")
    print(f"pages: {passed} passed, {failed} failed")
    return passed, failed
