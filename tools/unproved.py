#!/usr/bin/env python3
"""Builds the program of these sources without running the proofs: in minutes, where the proofs take an hour.

    tools/unproved.py [--tests CRATE | --crate CRATE] [--no-fills] [--no-hints] PROGRAM

It is the same code as that of a proved build, but nobody has proved it: whoever runs it or measures it says so. `rt try` compiles the program with
checks of its own, for LLVM; of that module the checks are taken out, and clang and the kit's linker make a program of it, with the flags of the
kit. The sources' hints on inlining are set as they are in a proved build (`--no-hints` leaves them out). The instructions of the two builds
differ by less than one in a hundred. `./mt` has `tools/build` call this; `bench/` measures such programs.

`--tests` builds the tests of a crate in place of the program: with the name of a test behind it that runs, by itself. `--crate` builds another program,
as that of `mt_replay`.

`--no-fills` also takes out the zeros with which each local that a function begins with is filled, to measure what they cost. A program may
rest on them, so its outputs have to be compared: `bench/whole.py --beside` does.
"""
import argparse
import os
import pathlib
import re
import shlex
import subprocess
import sys
import tempfile

TOP = pathlib.Path(__file__).resolve().parent.parent
# A kit's clang that keeps the program's module, which alone is compiled with a sanitizer, beside its flags, and ends there: `rt try` runs nothing.
RECORDER = """#!/bin/sh
case " $* " in *" -fsanitize=address "*) ;; *) exec {clang} "$@" ;; esac
printf '%s\\n' "$@" > {flags} || exit
for word in "$@"; do
    case "$word" in *.bc) cp "$word" {module}.part && mv {module}.part {module} ;; esac
done
exit 1
"""
# What a try looks at, whether a called pointer fits its signature among it, and the bytes with which it fills what isn't set.
CHECK = re.compile(r'^  (?:%[\w.]+ = call i8|call void) @"rattle-(llvm-checks|try)::|^  call void @llvm\.memset\.[^(]*\(ptr [^,]*, i8 -86,')
LEFT = re.compile(r'^ .*@"rattle-(llvm-checks|try)::')
FILL = re.compile(r"^  call void @llvm\.memset\.[^(]*\(ptr [^%]*(%[\w.]+), i8 0, i64 \d+, i1 false\)")
LOCAL = re.compile(r"^  (%[\w.]+) = alloca ")
DEFINED = re.compile(r'^define .*?@"((mt_\w+)::[^"]*)"\(')
OWNER = re.compile(r"^impl(?:<[^{]*>)? (?:[^{]*? for )?(\w+)")
HINT = re.compile(r"^\s*#\[inline\((always|never)\)\]")
FUNCTION = re.compile(r"^\s*(?:pub(?:\([^)]*\))? )?(?:const )?fn (\w+)")
GENERICS = re.compile(r"::<[^:]*>$")
# What is put before a command, so that the system tells it to stop if whoever started it is killed.
ENDS_WITH_US = ("setpriv", "--pdeathsig", "TERM")
TARGET = "x86_64-unknown-linux-gnu"
# What is built where nothing else is named: the program of this crate, by `rt try` with no more words.
PROGRAM = ("mt_program", [])
NOT_PASSED_ON = ("-O", "-fsanitize", "-Werror", "--sysroot", "-o", "-c", "-x")


class CannotBuild(Exception):
    """Why there is no program: what was done, and what the tool said of it."""


class OtherKit(CannotBuild):
    """The kit's module isn't of the form that is taken apart here."""


def kit():
    """The folder of the kit whose `rt` is called."""
    told = subprocess.run(["rt", "doc"], stdout=subprocess.PIPE, check=True, text=True).stdout
    return pathlib.Path(told.strip()).parent


def called(words, room, **how):
    """What a tool said, and its status. It keeps its files in the room; if this program is told to stop or is killed, the tool is told to stop."""
    how |= {"stdin": subprocess.DEVNULL, "stdout": subprocess.PIPE, "stderr": subprocess.STDOUT, "text": True, "errors": "replace"}
    # in a session of its own, so that it is told once: `rt` then ends what it started, and a second signal would keep it from that
    tool = subprocess.Popen([*ENDS_WITH_US, *words], env=dict(os.environ, TMPDIR=str(room)), start_new_session=True, **how)
    try:
        said, _ = tool.communicate()
    except BaseException:
        tool.terminate()
        tool.communicate()
        raise
    return said, tool.returncode


def done(what, words, room, **how):
    """Calls a tool, which has to end well."""
    said, status = called(words, room, **how)
    if status:
        raise CannotBuild(f"{what}: {said.strip()[-800:] or f'status {status}'}")


def with_recorder(own, room):
    """A kit like the given one, but that its clang leaves a copy of the module and of its flags in a folder."""
    made = room / "kit"
    for folder in (made / "bin", made / "toolchain/bin"):
        folder.mkdir(parents=True)
    listed = [it for it in own.iterdir() if it.name not in ("bin", "toolchain")]
    listed += [*(own / "bin").iterdir(), own / "toolchain/lib", *(own / "toolchain/bin").iterdir()]
    for it in listed:
        to = made / it.relative_to(own)
        if it.name in ("rt", "rtlib.py"):
            to.write_bytes(it.read_bytes())  # rt finds its kit by where its own file is
        elif it.name != "clang":
            to.symlink_to(it)
    words = {"module": room / "module.bc", "flags": room / "flags", "clang": own / "toolchain/bin/clang"}
    clang = made / "toolchain/bin/clang"
    clang.write_text(RECORDER.format(**{name: shlex.quote(str(it)) for name, it in words.items()}))
    clang.chmod(0o755)
    return made


def compiled(top, own, room, what):
    """The lines of the module that `rt try` compiles of a crate, with these words: of its program, or of its tests."""
    crate, more = what
    rt = with_recorder(own, room) / "bin/rt"
    words = [sys.executable, rt, "try", *more]
    said, _ = called(words, room, cwd=top / "crates" / crate)
    if not (room / "module.bc").exists():
        raise CannotBuild(f"`rt try` compiled no program: {said.strip()[-800:]}")
    words = [f"--target={TARGET}", "-S", "-emit-llvm", "-x", "ir", "-Xclang", "-disable-llvm-passes", "-w", room / "module.bc", "-o", room / "module.ll"]
    done("the module isn't read", [own / "toolchain/bin/clang", *words], room)
    return (room / "module.ll").read_text().splitlines()


def hints(top):
    """What the sources say on inlining: of crate, owner (or none) and function, the word."""
    found = {}
    for file in sorted(top.glob("crates/*/src/**/*.rt")):
        owner, word = "", None
        for line in file.read_text().splitlines():
            if line.startswith("}"):
                owner = ""
            elif line.startswith("impl"):
                owner = OWNER.match(line)[1]
            word = (HINT.match(line) or [None, word])[1]
            if (named := FUNCTION.match(line)) and word:
                found[file.relative_to(top).parts[1], owner, named[1]] = word
                word = None
    return found


def hinted(line, words):
    """The first line of a function with the hint that the sources have for it."""
    named = DEFINED.match(line)
    if not named:
        return line
    parts = GENERICS.sub("", named[1]).split("::")
    owner = parts[-2] if len(parts) > 1 and parts[-2][:1].isupper() else ""
    word = words.get((named[2], owner, parts[-1]))
    return re.sub(r" (#\d+) \{", {"always": r" alwaysinline \1 {", "never": r" noinline \1 {"}.get(word, r" \1 {"), line, count=1)


def unchecked(lines):
    """The lines of a module without the checks of a try."""
    kept = [line for line in lines if not CHECK.match(line)]
    left = next(filter(LEFT.match, kept), None)
    if len(kept) == len(lines) or left:
        raise OtherKit(f"the checks of a try can't be told apart from the program: {left.strip()[:200] if left else 'there are none'}")
    return kept


def stripped(lines, words):
    """The lines of a module as in a proved build, its functions with these hints."""
    lines = [hinted(line, words) for line in unchecked(lines)]
    return [it.replace(" sanitize_address", "").replace('"frame-pointer"="all"', '"frame-pointer"="none"') if it.startswith("attributes") else it for it in lines]


def without_fills(lines):
    """The lines without what fills locals with zeros in the block that a function begins with. `indexmap` rests on its fills, so that it keeps them."""
    kept, locals_, begins = [], set(), False
    for line in lines:
        if line.startswith("define"):
            locals_, begins = set(), '@"indexmap' not in line
        elif line and not line.startswith(" "):
            begins = begins and line == "start:"
        elif begins and (local := LOCAL.match(line)):
            locals_.add(local[1])
        filled = FILL.match(line) if begins else None
        if not filled or filled[1] not in locals_:
            kept.append(line)
    return kept


def linked(own, room, program):
    """Compiles the module's text with the kit's flags, and links it."""
    flags = (room / "flags").read_text().splitlines()
    flags = [it for it in flags if it.startswith("-") and not it.startswith(NOT_PASSED_ON)]
    clang = [own / "toolchain/bin/clang", f"--sysroot={own}/toolchain", *flags, "-w", "-O3", "-fPIE", "-c", "-x", "ir"]
    done("the module isn't compiled", [*clang, room / "stripped.ll", "-o", room / "program.o"], room)
    words = ["--target", TARGET, "--toolchain", own / "toolchain", "-o", program, room / "program.o"]
    done("the program isn't linked", [own / "bin/rattle-link", *words, own / "c/libos_c.a", own / "c/liblibc_c.a"], room)


def build_in(room, top, program, stage, what=PROGRAM, with_hints=True, with_fills=True):
    """Builds the program of the sources in a folder, a crate's tests, or another program, in a room that is empty; each stage is told as it begins."""
    own = kit()
    stage("1 of 3: compiling the sources")
    lines = compiled(top, own, room, what)
    stage("2 of 3: taking out the checks of a try")
    lines = stripped(lines, hints(top) if with_hints else {})
    lines = lines if with_fills else without_fills(lines)
    (room / "stripped.ll").write_text("\n".join(lines) + "\n")
    stage("3 of 3: making the program")
    linked(own, room, os.path.abspath(program))


def build(top, program, **which):
    """Builds the program of the sources in a folder, and says nothing."""
    with tempfile.TemporaryDirectory() as room:
        build_in(pathlib.Path(room), top, program, lambda stage: None, **which)


def main():
    asked = argparse.ArgumentParser(description=__doc__.split("\n")[0])
    of = asked.add_mutually_exclusive_group()
    of.add_argument("--tests", metavar="CRATE")
    of.add_argument("--crate", metavar="CRATE", default=PROGRAM[0])
    asked.add_argument("--no-fills", action="store_true")
    asked.add_argument("--no-hints", action="store_true")
    asked.add_argument("program")
    given = asked.parse_args()
    what = (given.tests, ["--test"]) if given.tests else (given.crate, [])
    build(TOP, given.program, what=what, with_hints=not given.no_hints, with_fills=not given.no_fills)


if __name__ == "__main__":
    main()
