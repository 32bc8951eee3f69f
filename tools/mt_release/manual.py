"""The man page: what the program says of its command line, and docs/SCRIPT.md, in the words of man(7).

It has no text of its own but on the files of an installation. A row of a table is a paragraph whose tag is the first cell; the cells from the third on have
the words over their columns before them.
"""
from __future__ import annotations

import re
import textwrap
from collections.abc import Iterator
from dataclasses import dataclass

from mt_release.markdown import Block, Code, Heading, Item, Paragraph, Table, blocks_of

WIDTH = 78
SPAN = re.compile(r"`([^`]+)`|\*\*(.+?)\*\*|\[([^\]]+)\]\([^)]*\)")
TROFF = {"\\": "\\e", "-": "\\-", "'": "\\(aq", "`": "\\(ga", "^": "\\(ha", "~": "\\(ti", '"': "\\(dq"}
BOLD, ROMAN = "\\fB", "\\fR"
# How many cells of a table are the tag, where it isn't one.
TAGS = {("status", "standard error", "when", "what was written"): 2}
# Where `install.sh` puts what the sections before name.
FILES = """\
The folders `docs`, `examples` and `tools` that are named here stand in the folder `share/mt` below that of the installation, and so does `mt.html`, a
page in which the controller runs. `tools/prompt`, `tools/rehearse`, `tools/picture` and `tools/controller` can be called as `mt-prompt`, `mt-rehearse`, `mt-picture` and
`mt-controller` too. The C library is `lib/libmt.a` and `lib/libmt.so`, with `include/mt.h`; that of Python is `lib/mt/mt.py`. `share/mt/RELEASE` says of which commit all this is, and what is
known of it."""


@dataclass(frozen=True)
class CommandLine:
    """What the program says of its command line: the line of usage, its help, and that of each command by its name."""

    usage: str
    help: str
    commands: dict[str, str]

    @property
    def about(self) -> str:
        """What the program does, in a line."""
        return self.help.splitlines()[0]


def literal(text: str) -> str:
    """A text as it is typed."""
    return "".join(TROFF.get(it, it) if it.isascii() else f"\\[u{ord(it):04X}]" for it in text)


def prose(text: str) -> str:
    """A text that is read: hyphens are hyphens, and apostrophes are those of English."""
    return "".join(it if it in "-'\"" else literal(it) for it in text)


def marked(text: str) -> str:
    """A text with its marks of Markdown: what is code, or stands out, is bold. A word of code isn't hyphenated."""
    parts, at = [], 0
    for found in SPAN.finditer(text):
        inside = re.sub(r"(?<!\S)(?=\S)", r"\\%", literal(found[1])) if found[1] else prose((found[2] or found[3]).replace("`", ""))
        parts += [prose(text[at : found.start()]), inside if found[3] else f"{BOLD}{inside}{ROMAN}"]
        at = found.end()
    return "".join([*parts, prose(text[at:])])


def filled(text: str) -> list[str]:
    """A paragraph as lines, none of which troff takes for a request."""
    lines = textwrap.wrap(text, WIDTH, break_long_words=False, break_on_hyphens=False)
    return [f"\\&{line}" if line[0] in ".'" else line for line in lines]


def code(lines: tuple[str, ...]) -> list[str]:
    """Lines as they are typed and printed."""
    kept = [literal(line.rstrip()) for line in lines]
    return [".PP", ".in +4n", ".EX", *(f"\\&{line}" if line.startswith(".") else line for line in kept), ".EE", ".in"]


def tagged(tag: str, text: list[str]) -> list[str]:
    """A paragraph with a tag; the texts of it begin a line each."""
    body = [line for part in text for line in (".br", *filled(part))]
    return [".TP", f"\\&{tag}", *body[1:]]


def table(block: Table) -> Iterator[str]:
    """A paragraph for each row."""
    tags = TAGS.get(block.head, 1)
    for row in block.rows:
        texts = [marked(cell) for cell in row]
        heads = block.head[tags + 1 :]
        more = [f"{marked(head)}: {text}" for head, text in zip(heads, texts[tags + 1 :]) if text]
        yield from tagged(", ".join(texts[:tags]), [texts[tags], *more])


def block_lines(block: Block) -> Iterator[str]:
    """A block of a page in man(7)."""
    if isinstance(block, Heading):
        yield f".SH {marked(block.text.upper())}" if block.level < 3 else f".SS {marked(block.text)}"
    elif isinstance(block, Paragraph):
        yield from [".PP", *filled(marked(block.text))]
    elif isinstance(block, Item):
        yield from [".IP \\(bu 3" if block.mark == "-" else f".IP {block.mark} 4", *filled(marked(block.text))]
    elif isinstance(block, Code):
        yield from code(block.lines)
    else:
        yield from table(block)


def command_lines(said: CommandLine) -> Iterator[str]:
    """What the program's help says of each command."""
    for name, text in said.commands.items():
        about, _, rest = text.partition("\n")
        yield from [f".SS {literal(name)}", *filled(prose(f"{about}.")), *code(tuple(rest.strip("\n").splitlines()))]


def synopsis(usage: str) -> Iterator[str]:
    """The line of usage, a line for each command."""
    for form in usage.removeprefix("usage: ").split(" | "):
        yield from [".br", f"{BOLD}{literal(form)}{ROMAN}"]


def manual(page: str, said: CommandLine, version: str, day: str) -> str:
    """The man page of a version of a day; `page` is docs/SCRIPT.md."""
    title, *blocks = blocks_of(page.replace("./mt ", "mt "))
    lines = [f'.TH MT 1 {day} "mt {version}" "User Commands"', ".ad l", ".SH NAME", f"mt \\- {prose(said.about)}", ".SH SYNOPSIS", *list(synopsis(said.usage))[1:]]
    lines += [".SH COMMANDS", *command_lines(said), ".SH DESCRIPTION"]
    lines += [line for block in blocks for line in block_lines(block)]
    lines += [".SH FILES", *filled(marked(FILES.replace("\n", " ")))]
    # a heading begins a paragraph itself
    kept = [line for before, line in zip(["", *lines], lines) if line != ".PP" or not before.startswith((".SH", ".SS"))]
    return "\n".join(kept) + "\n"
