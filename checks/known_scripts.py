"""Scripts whose outputs are known: the worked ones of crates/mt_worked, read from its definitions, and those of examples/."""
import collections.abc
import functools
import pathlib
import re
import typing

TOP = pathlib.Path(__file__).resolve().parent.parent
SPECS = TOP / "crates/mt_worked/specs"
EXAMPLES = TOP / "examples"
DEFINITION = re.compile(r"^abbrev pub (\w+) : .*\n\1((?: \w+)*) =\s+(.*(?:\n.+)*)", re.M)
TOKEN = re.compile(r'"(?:[^"\\]|\\.)*"|\d+|\w+|∷|\+\+|≡|[()\[\],]')
BYTES = {"n": "\n", "t": "\t", "r": "\r"}

Value = typing.Any  # a text, a number, a list, a line with its answer, a script, or a function


def text_of(literal: str) -> str:
    return re.sub(r"\\(.)", lambda it: BYTES.get(it[1], it[1]), literal[1:-1])


def asked(lines: list[tuple[str, str]]) -> str:
    return "".join(f"{line}\n" for line, _ in lines)


def answered(lines: list[tuple[str, str]]) -> str:
    return "".join(f"{answer}\n" for _, answer in lines)


# what the scripts use of the definitions; a script is the keyspaces whose primaries have a watcher, the input and the output
KNOWN: dict[str, Value] = {
    "codes": lambda text: text,
    "replicate": lambda count: lambda item: [item] * count,
    "asked": asked,
    "answered": answered,
    "watchers_of": lambda keyspaces: keyspaces,
    "output": lambda keyspaces: lambda script: (keyspaces, script),
    "Prints": lambda keyspaces: lambda lines: (keyspaces, asked(lines), answered(lines)),
}


class Page:
    """The definitions of the crate, by their names."""

    def __init__(self) -> None:
        texts = "\n\n".join(page.read_text() for page in sorted(SPECS.glob("*.antt")))
        self.bodies = {name: (words.split(), body) for name, words, body in DEFINITION.findall(texts)}

    @functools.cache
    def value(self, name: str) -> Value:
        """What a name stands for."""
        if name in KNOWN:
            return KNOWN[name]
        words, body = self.bodies[name]
        tokens = TOKEN.findall(body)
        if not words:
            return Reader(self, {}, tokens).equation()
        return lambda argument: Reader(self, {words[0]: argument}, tokens).equation()


class Reader:
    """A term that is read from left to right."""

    def __init__(self, page: Page, local: dict[str, Value], tokens: list[str]) -> None:
        self.page, self.local, self.tokens, self.at = page, local, tokens, 0

    def next_is(self, *tokens: str) -> bool:
        """Whether one of these comes next."""
        return self.at < len(self.tokens) and self.tokens[self.at] in tokens

    def take(self) -> str:
        self.at += 1
        return self.tokens[self.at - 1]

    def equation(self) -> Value:
        """A term; or an output and what it is said to be, as a script."""
        left = self.term()
        if not self.next_is("≡"):
            return left
        self.take()
        return (*left, self.term())

    def term(self) -> Value:
        """Parts that are put together from the right."""
        left = self.applied()
        if not self.next_is("∷", "++"):
            return left
        is_item, right = self.take() == "∷", self.term()
        return [left, *right] if is_item else left + right

    def applied(self) -> Value:
        """A value, applied to those that follow it."""
        value = self.single()
        while self.at < len(self.tokens) and not self.next_is("∷", "++", "≡", ")", ","):
            value = value(self.single())
        return value

    def single(self) -> Value:
        token = self.take()
        if token == "[":
            self.take()
            return []
        if token == "(":
            return self.tuple_or_term()
        if token.startswith('"'):
            return text_of(token)
        return int(token) if token.isdigit() else self.local.get(token) or self.page.value(token)

    def tuple_or_term(self) -> Value:
        """What stands in brackets, the first of which was taken."""
        values = [self.equation()]
        while self.take() == ",":
            if not self.next_is(")"):
                values.append(self.equation())
        return tuple(values) if len(values) > 1 else values[0]


Script = tuple[str, list[str], str, str]  # its name, the keyspaces named, the script and its output


def worked() -> collections.abc.Iterator[Script]:
    """Each worked script."""
    page = Page()
    for name, (words, body) in page.bodies.items():
        if not words and re.match(r"Prints|output", body):
            yield name, *page.value(name)


def words_of(name: str) -> list[str]:
    """The words behind `run` of an example, by the script's own comment."""
    told = re.search(rf"^# +\./mt run(.*) < examples/{name}\.script$", (EXAMPLES / f"{name}.script").read_text(), re.M)
    return told[1].split() if told else []


def examples() -> collections.abc.Iterator[Script]:
    """Each example."""
    for script in sorted(EXAMPLES.glob("*.script")):
        yield f"examples/{script.name}", words_of(script.stem), script.read_text(), script.with_suffix(".output").read_text()
