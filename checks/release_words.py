"""The words of the archive that have their text elsewhere: the man page and the completions of bash."""
from __future__ import annotations

import collections
import pathlib
import re
import shutil
import subprocess
from collections.abc import Iterator

from release_archives import TOP, Case, ran

# What of docs/SCRIPT.md isn't in the man page: the words over columns, which stand beside the cells there, and those behind the fence of a session.
LEFT_OUT = re.compile(r"^\|.*\|\n(?=\|--)|^```.*$|^# .*$", re.M)
SPAN = re.compile(r"`([^`\n]+)`")
# So wide that no line of text is broken.
WIDE = ["-rLL=20000n", "-rHY=0"]
OPTION = re.compile(r"(?<![\w-])--?[a-z]+\b")
# The words of a command line, the last of which is completed, and what is offered.
COMPLETED = {
    ("mt", ""): "run rules topology race help --help -h",
    ("mt", "r"): "run rules race",
    ("mt", "--"): "--help",
    ("mt", "race", ""): "--clients --writes --help -h",
    ("mt", "race", "--w"): "--writes",
    ("mt", "race", "--clients", ""): "1 2 3 4",
    ("mt", "race", "--clients", "="): "1 2 3 4",
    ("mt", "race", "--clients", "=", "3"): "3",
    ("mt", "race", "--writes", ""): "",
    ("mt", "race", "--clients", "2", "--"): "--writes --help",
    ("mt", "race", "--", "--"): "",
    ("mt", "run", ""): "",
    ("mt", "run", "-"): "--help -h",
    ("mt", "run", "commerce", "--h"): "--help",
    ("mt", "run", "--", "-"): "",
    ("mt", "rules", "-"): "--help -h",
    ("mt", "help", "t"): "topology",
    ("mt", "help", "run", ""): "",
    ("mt", "unknown", ""): "",
    ("mt", "run", "<"): "(default)",
    ("mt", "run", "<", ""): "(default)",
    ("mt", "race", ">", "o"): "(default)",
    ("mt-prompt", ""): "",
    ("mt-prompt", "--mt", ""): "(default)",
    ("mt-picture", ""): "(default)",
    ("mt-picture", "a.script", "commerce", ""): "",
    ("mt-picture", "a.script", "-o", ""): "(default)",
    ("mt-rehearse", "--js"): "--json",
    ("mt-rehearse", "--json", "--js"): "",
    ("mt-rehearse", "--script", ""): "(default)",
    ("mt-rehearse", "--script", "=", "a"): "(default)",
    ("mt-rehearse", "do"): "(filenames) docs",
    ("/usr/local/bin/mt-rehearse", "--ru"): "--rules",
    ("mt-controller", "--log", ""): "",
    ("mt-controller", "--log", "sqlite:moves.db", "--ba"): "--batch",
    ("mt-controller", "--cacert", ""): "(default)",
    ("mt-controller", "--script", ""): "",
}
# Sources the completions, and completes the words that follow; `compopt` tells what it is called for.
ASK = """
. "$1"; shift
compopt() { echo "($2)"; }
COMP_WORDS=("$@") COMP_CWORD=$(($# - 1))
spec=$(complete -p -- "${1##*/}") || exit 1
spec=${spec#*-F }
"${spec%% *}"
echo "${COMPREPLY[@]}"
"""


def rendered(page: pathlib.Path) -> subprocess.CompletedProcess[str]:
    """The man page as text without line breaks in a paragraph; what groff says of it stands in its standard error."""
    words = ["groff", "-man", "-ww", "-Tascii", "-P-cbou", *WIDE, str(page)]
    return subprocess.run(words, capture_output=True, text=True, check=False)


def lacks(page: str, text: str) -> list[str]:
    """The words of docs/SCRIPT.md that a text has less often, and the pieces of code that it hasn't as they are."""
    page = LEFT_OUT.sub("", page)
    wanted, there = (collections.Counter(re.findall(r"\w+", it.lower())) for it in (page, text))
    plain = " ".join(text.split())
    spans = {" ".join(it.replace("./mt ", "mt ").replace("\\|", "|").split()) for it in SPAN.findall(page)}
    return sorted([word for word, number in wanted.items() if there[word] < number] + [span for span in spans if span not in plain])


def manual(folder: pathlib.Path, program: pathlib.Path) -> Iterator[Case]:
    """The man page: that it says all, and is well written."""
    page = folder / "man/mt.1"
    if shutil.which("groff"):
        done = rendered(page)
        yield "groff has nothing to say of the man page", done.returncode == 0 and not done.stderr
        missing = lacks((TOP / "docs/SCRIPT.md").read_text(), done.stdout)
        if missing:
            print(f"the man page lacks {' '.join(missing[:20])}")
        yield "it has each word of docs/SCRIPT.md", not missing
        usage = ran([program], folder).stdout.strip().removeprefix("usage: ").split(" | ")
        helps = [line for name in usage for line in ran([program, "help", name.split()[1]], folder).stdout.splitlines()[1:]]
        helps = [line.strip().replace(f" {program.name} ", " mt ") for line in helps]
        yield "it has the usage and the help", all(re.search(rf"^ *{re.escape(it)}$", done.stdout, re.M) for it in [*usage, *helps])
        version = folder.name.split("-")[1]
        yield "it has the version", re.search(rf"^mt {re.escape(version)} .*MT\(1\)$", done.stdout.strip().splitlines()[-1]) is not None
    else:
        yield "groff and the man page", None
    if shutil.which("mandoc"):
        done = ran(["mandoc", "-T", "lint", "-W", "style", page], folder)
        yield "mandoc has nothing to say of it", done.returncode == 0 and not done.stdout
    else:
        yield "mandoc and the man page", None


def offered(folder: pathlib.Path, words: tuple[str, ...]) -> str:
    """What is offered for the last of these words."""
    return " ".join(ran(["bash", "-c", ASK, "bash", folder / "completions/mt.bash", *words], folder).stdout.split())


def completions(folder: pathlib.Path, program: pathlib.Path) -> Iterator[Case]:
    """The completions: that they are what the command lines take."""
    for words, want in COMPLETED.items():
        got = offered(folder, words)
        if got != want:
            print(f"{' '.join(words)}: offers '{got}', not '{want}'")
        yield f"completion of {' '.join(words)}", got == want
    told = ran([program, "help"], folder).stdout
    commands = re.findall(r"^  (\w+)  ", told.partition("Commands:")[2].partition("Options:")[0], re.M)
    yield "the commands are those of the help", set(offered(folder, ("mt", "")).split()) == {*commands, *OPTION.findall(told)}
    for command in commands[:-1]:
        told = ran([program, "help", command], folder).stdout
        yield f"the options of {command} are those of its help", set(offered(folder, ("mt", command, "-")).split()) == set(OPTION.findall(told))
    for tool in ("prompt", "rehearse", "picture", "controller"):
        told = ran([folder / "tools" / tool, "--help"], folder).stdout.partition("options:")[2]
        yield f"the options of {tool} are those of its help", set(offered(folder, (f"mt-{tool}", "-")).split()) == set(OPTION.findall(told))


def words(folder: pathlib.Path, program: pathlib.Path) -> Iterator[Case]:
    """Of the man page and the completions whether they say what is so."""
    yield from manual(folder, program)
    yield from completions(folder, program)
