"""Real editors with the language server, skipped where they aren't installed: neovim, Emacs and Helix."""

import glob
import json
import os
import re
import shlex
import shutil
import subprocess
import tempfile
import time
import unittest

from language_server.client import server
from support import programs
from support.messages import MARGIN, NEVER_ENTERED, NEVER_WINS, OPERATOR

SCRIPTS = f"{programs.TOP}/tests/language_server"

LSP_MODE = "/usr/share/emacs/site-lisp/elpa-src/lsp-mode-*"
# a package of its own, or part of Emacs from 29 on
EGLOT = ["/usr/share/emacs/site-lisp/elpa-src/eglot-*", "/usr/share/emacs/*/lisp/progmodes/eglot.elc"]

FAULTS = [
    "1:9-1:13 Start state already exists", "4:8-4:10 Rule name already exists", f"5:1-5:12 Verbatim code not supported: {MARGIN}",
    f"6:1-6:2 Invalid regular expression: unclosed group: {OPERATOR}",
]

# The kinds of these faults, which eglot shows.
CODES = ["DuplicateStartState", "DuplicateName", "VerbatimNotSupported", "RegexError"]

# Edits as one types them, and what is wrong after each: the places in bytes, as neovim counts them.
STEPS = [
    ("1s/here here/here there/", ["4:8-4:10 Rule name already exists", f"5:1-5:12 Verbatim code not supported: {MARGIN}",
                                  f"6:1-6:2 Invalid regular expression: unclosed group: {OPERATOR}"]),
    ("4s/ID/I2/", [f"5:1-5:12 Verbatim code not supported: {MARGIN}", f"6:1-6:2 Invalid regular expression: unclosed group: {OPERATOR}"]),
    ("6s/(/😀()/", [f"5:1-5:12 Verbatim code not supported: {MARGIN}"]),
    ("5d", [f"1:4-1:8 {NEVER_ENTERED}", f"1:9-1:14 {NEVER_ENTERED}", f"4:1-4:6 {NEVER_WINS}"]),
    # what a script does is one step to neovim
    ("undo", FAULTS),
]

# What a fault says.
MESSAGES = [it.split(" ", 1)[1] for it in FAULTS]

# Steps with the settings of docs/editors.md, and with examples/tokens.l as the rules of C texts: what is wrong after each,
# and what the first character is. Helix doesn't show the latter; its screen shows the second file too.
STEPS_IN_NEOVIM = [
    ("edit faults.l", MESSAGES, "keyword.lex"),
    ("1s/here here/here there/", MESSAGES[1:], "keyword.lex"),
    ("edit sorted.c", ["unexpected character '/'"], None),
    ("1s/^/int /", ["unexpected character '/'"], "variable.c"),
    ("split tokens.l | call append('$', \". 'OTHER'\") | wincmd p", [], "variable.c"),
    ("1s/^/;/", [], "operator.c"),
]
KEYS_IN_HELIX = [
    ([], MESSAGES),
    (["xd"], MESSAGES[1:]),
    ([":open sorted.c", "Enter"], ["unexpected character '/'"]),
    (["xd"], ["unexpected character '#'"]),
    ([":hsplit tokens.l", "Enter"], ["unexpected character '#'", "[ ] ;"]),
    # a single change: 25.01 may send several in the wrong order
    (["gea^", "Escape"], ["unexpected character ' '"]),
]

# From which version on which settings are meant, and tokens are coloured.
SETTINGS_OF_NEOVIM = [((0, 11), "From 0.11, in `init.lua`:"), ((0, 7), "From 0.7 to 0.10:")]
COLOURS_OF_NEOVIM = (0, 9)

# What Helix needs before this version, to show messages.
SETTINGS_OF_HELIX = ((25, 7), "In `config.toml` of 25.01; later versions show messages beside the lines without it:")

# The lines of docs/editors.md below which settings are taken.
HEADINGS = [
    *(heading for _, heading in [*SETTINGS_OF_NEOVIM, SETTINGS_OF_HELIX]), "A mode for rule files:", "With eglot:",
    "With lsp-mode, which colours tokens too:", "In `languages.toml`:",
]


def sections(out):
    """The lines below each heading."""
    found = {}
    for part in out.split("== ")[1:]:
        heading, *lines = part.splitlines()
        found[heading] = lines
    return found


def settings_below(heading, rules=f"{programs.TOP}/rules/c.l"):
    """The settings that docs/editors.md has below this line, with the server's path and that of a rule file."""
    with open(f"{programs.TOP}/docs/editors.md", encoding="utf-8") as file:
        text = file.read().split(f"\n{heading}\n", 1)[1].split("```", 2)[1].split("\n", 1)[1]
    first, *rest = (json.dumps(word) for word in server())
    for here, there in [
        ('"/PATH/rolgumzai", "lsp"', ", ".join([first, *rest])),
        ('"/PATH/rolgumzai" "lsp"', " ".join([first, *rest])),
        ('"/PATH/rolgumzai"\nargs = ["lsp"', f"{first}\nargs = [{', '.join(rest)}"),
        ("/PATH/rules/c.l", rules),
    ]:
        text = text.replace(here, there)
    return text


def home_with(*names):
    """A home with copies of these files of examples/."""
    home = tempfile.mkdtemp(dir=programs.scratch().name)
    for name in names:
        shutil.copy(f"{programs.TOP}/examples/{name}", home)
    return home


def environment_in(home, **more):
    """The environment of an editor that finds nothing but what is in this home."""
    others = {name: value for name, value in os.environ.items() if not name.startswith("XDG_")}
    return {**others, "HOME": home, "LC_ALL": "C.UTF-8", **more}


def run_editor(words, home, **more):
    """What an editor prints."""
    ended = subprocess.run(
        words, cwd=home, env=environment_in(home, **more), stdin=subprocess.DEVNULL, capture_output=True, timeout=120,
        check=False, encoding="utf-8"
    )
    return ended.stdout + ended.stderr


def version_of(program, home):
    """The first two numbers of its version."""
    return tuple(int(number) for number in re.search(r"(\d+)\.(\d+)", run_editor([program, "--version"], home)).groups())


def write(path, text):
    """Writes a file, and gives its path."""
    os.makedirs(os.path.dirname(path), exist_ok=True)
    with open(path, "w", encoding="utf-8") as file:
        file.write(text)
    return path


class Terminal:
    """A program in a terminal, by tmux. `with` ends it whatever happens."""

    def __init__(self, words, home):
        self.home = home
        self.tmux("new-session", "-d", "-x", "160", "-y", "50", *words)

    def __enter__(self):
        return self

    def __exit__(self, *_):
        self.tmux("kill-server")

    def tmux(self, *words):
        """What tmux prints."""
        return run_editor(["tmux", "-S", f"{self.home}/tmux", "-f", "/dev/null", *words], self.home)

    def screen(self):
        """What it shows."""
        return self.tmux("capture-pane", "-p")

    def shown(self, texts, wanted):
        """Which of these texts it shows, as soon as these are the wanted ones, or after a minute."""
        end = time.monotonic() + 60
        while True:
            screen = self.screen()
            shown = [text for text in texts if text in screen]
            if shown == wanted or time.monotonic() > end:
                return shown
            time.sleep(0.1)


class Page(unittest.TestCase):
    """What docs/editors.md has, also for editors that aren't installed."""

    def test_settings(self):
        page = programs.read("docs/editors.md")
        for heading in HEADINGS:
            with self.subTest(heading=heading):
                self.assertEqual(1, page.count(f"\n{heading}\n\n```"))


class Editors(unittest.TestCase):
    """A session of each editor."""

    def test_neovim(self):
        if not shutil.which("nvim"):
            self.skipTest("neovim isn't installed")
        steps = "|".join(step for step, _ in STEPS)
        words = ["nvim", "--headless", "-u", "NONE", "-i", "NONE", "-n", "-c", f"luafile {SCRIPTS}/nvim.lua"]
        out = run_editor(words, home_with("faults.l"), FILE="faults.l", SERVER=shlex.join(server()), STEPS=steps)
        found = sections(out)
        self.assertEqual(FAULTS, found["opened"], out)
        for step, wanted in STEPS:
            with self.subTest(step=step):
                self.assertEqual(wanted, found[f"after :{step}"], out)
        self.assertIn("stopped true", out)

    def test_settings_of_neovim(self):
        if not shutil.which("nvim"):
            self.skipTest("neovim isn't installed")
        home = home_with("faults.l", "sorted.c", "tokens.l")
        version = version_of("nvim", home)
        heading = next(heading for first, heading in SETTINGS_OF_NEOVIM if version >= first)
        wanted = {}
        for command, messages, kind in STEPS_IN_NEOVIM:
            colour = f"@lsp.type.{kind}" if kind and version >= COLOURS_OF_NEOVIM else "not coloured"
            wanted[command] = [*messages, colour]
        init = write(f"{home}/init.lua", settings_below(heading, rules=f"{home}/tokens.l"))
        words = ["nvim", "--headless", "-u", init, "-i", "NONE", "-n", "-c", f"luafile {SCRIPTS}/nvim-settings.lua"]
        self.assertEqual(wanted, sections(run_editor(words, home, STEPS=json.dumps(list(wanted.items())))))

    def test_settings_of_eglot(self):
        if not shutil.which("emacs") or not any(glob.glob(pattern) for pattern in EGLOT):
            self.skipTest("Emacs or eglot isn't installed")
        home = home_with("faults.l")
        settings = write(f"{home}/settings.el", settings_below("A mode for rule files:") + settings_below("With eglot:"))
        words = ["emacs", "-Q", "--batch", "-l", f"{SCRIPTS}/eglot.el"]
        found = sections(run_editor(words, home, FILE=f"{home}/faults.l", SETTINGS=settings))
        wanted = []
        for fault, code in zip(FAULTS, CODES):
            place, message = fault.split(" ", 1)
            wanted.append(f"{place.split(':')[0]}: lrlex [{code}]: {message}")
        self.assertEqual(wanted, found["opened"])
        self.assertEqual(wanted[1:], found["after an edit"])

    def test_settings_of_lsp_mode(self):
        if not shutil.which("emacs") or not glob.glob(LSP_MODE):
            self.skipTest("Emacs or lsp-mode isn't installed")
        home = home_with("sorted.c")
        headings = ["A mode for rule files:", "With lsp-mode, which colours tokens too:"]
        settings = write(f"{home}/settings.el", "".join(settings_below(heading) for heading in headings))
        words = ["emacs", "-Q", "--batch", "-l", f"{SCRIPTS}/lsp-mode.el"]
        found = sections(run_editor(words, home, FILE=f"{home}/sorted.c", SETTINGS=settings))
        self.assertIn('"include" lsp-face-semhl-variable', found["opened"])
        self.assertEqual('"int" lsp-face-semhl-keyword', found["after an edit"][1], found)
        self.assertGreater(int(found["after an edit"][0].split()[0]), int(found["opened"][0].split()[0]))

    def test_settings_of_helix(self):
        helix = shutil.which("hx") or shutil.which("helix")
        if not helix or not shutil.which("tmux"):
            self.skipTest("Helix or tmux isn't installed")
        home = home_with("faults.l", "sorted.c", "tokens.l")
        write(f"{home}/.config/helix/languages.toml", settings_below("In `languages.toml`:", rules=f"{home}/tokens.l"))
        first_without, heading = SETTINGS_OF_HELIX
        if version_of(helix, home) < first_without:
            write(f"{home}/.config/helix/config.toml", settings_below(heading))
        texts = [*MESSAGES, "unexpected character '/'", "unexpected character '#'", "unexpected character ' '", "[ ] ;"]
        with Terminal([helix, "faults.l", "sorted.c", "tokens.l"], home) as terminal:
            for keys, wanted in KEYS_IN_HELIX:
                for key in keys:
                    terminal.tmux("send-keys", key)
                self.assertEqual(wanted, terminal.shown(texts, wanted), f"after {keys}:\n{terminal.screen()}")
