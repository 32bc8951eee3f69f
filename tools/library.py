"""The library for other programs: libmt.a, which a C program links, and libmt.so, which one loads. docs/EMBED.md says how both are used.

They are made of an archive of crates/mt that is proved, by `rt lib` or here over the libraries that a gate left; or of the module of the same sources
without running the proofs (unproved.py says how that is made). Either way the parts of the kit's C that it calls are put into the archive, so that one file is
linked, and the shared object shows its exports alone.
"""
import re

import unproved

ARCHIVE, SHARED = "libmt.a", "libmt.so"
CRATE, MODULE = "mt", "mt::exports"
EXPORTS = ["mt_version", "mt_open", "mt_command", "mt_close", "mt_run"]


def as_library(lines):
    """The lines of a try's module as those of a library: its `main` and what runs before it are taken out, and the exports are seen from outside."""
    names = {f'@"{MODULE}::{it}"': f"@{it}" for it in EXPORTS}
    find = re.compile("|".join(map(re.escape, names)))
    kept, is_main = [], False
    for line in lines:
        is_main = is_main or re.match(r"define .*@main\(", line) is not None
        if not is_main and "@llvm.global_" not in line:
            seen = find.sub(lambda it: names[it[0]], line)
            kept.append(seen.replace("define internal", "define", 1) if seen != line else seen)
        is_main = is_main and line != "}"
    return kept


def module_of(top, own, room):
    """The lines of the library's module for x86-64, without the checks of a try. `rt try` reaches the exports through the crate's tests."""
    return as_library(unproved.stripped(unproved.compiled(top, own, room, (CRATE, ["--test"])), unproved.hints(top)))


def flags_of(room):
    """The kit's flags for such a module."""
    return [it for it in (room / "flags").read_text().splitlines() if it.startswith("-") and not it.startswith((*unproved.NOT_PASSED_ON, "-fPIE"))]


def lines_below(top):
    """Of each crate that the library stands on, and of the library, the kit's libraries and the repository's that its line of crates.txt names."""
    rows = [line.partition(":") for line in (top / "crates.txt").read_text().splitlines() if line.strip() and not line.startswith("#")]
    uses = {head.split()[0]: below.split() for head, _, below in rows}
    found, left = {}, [CRATE]
    while left:
        name = left.pop()
        if name in uses and name not in found:
            found[name] = ([it for it in uses[name] if it not in uses], [it for it in uses[name] if it in uses])
            left += found[name][1]
    return found


def libraries_below(top):
    """What a gate leaves of each crate that the library stands on: its library, which is proved."""
    return [top / "crates" / name / f"out/rlib/{name}.rlib" for name in lines_below(top) if name != CRATE]


def prove_in(room, top, archive):
    """Proves the library's crate over the libraries that a gate left, and makes its archive."""
    own, (of_kit, ours) = unproved.kit(), lines_below(top)[CRATE]
    words = [own / "bin/rattle", "build", "--crate-name", CRATE, "src/lib.rt", "--crate-type", "staticlib", "--links", f"{CRATE}="]
    words += [it for name in ("std", *of_kit) for it in ("--extern", f"{name}={own / 'rlibs' / name}.rlib")]
    words += ["-L", f"dependency={own / 'rlibs'}"]
    for made in libraries_below(top):
        words += ["--extern", f"{made.stem}={made}"] * (made.stem in ours) + ["-L", f"dependency={made.parent}"]
    words += ["--antt-project", own / "rattle/logic/antt-project.json", "--logic-built", own / "logic_built"]
    words += ["--toolchain", own / "toolchain", "--backend", "llvm", "-o", archive]
    unproved.done("the library isn't proved", words, room, cwd=top / "crates" / CRATE)


def link(own, room, of):
    """Makes the archive and the shared object in a room, of an object file or of an archive."""
    tools, archive = own / "toolchain/bin", room / ARCHIVE
    unproved.done("there is no archive", [tools / "llvm-ar", "qcsL", archive, of, own / "c/liblibc_c.a"], room)
    (room / "exports").write_text(f"{{ global: {' '.join(f'{it};' for it in EXPORTS)} local: *; }};\n")
    # no name is left open, none of the exports is missing, and a program's own function of such a name doesn't take its place in here
    words = ["-shared", "-Bsymbolic", "-soname", SHARED, "-z", "defs", f"--version-script={room / 'exports'}", "--no-undefined-version"]
    words += ["--whole-archive", archive, "--no-whole-archive", own / "toolchain/lib/libc.so.6", "-o", room / SHARED]
    unproved.done("there is no shared object", [tools / "ld.lld", *words], room)


def build_in(room, top, stage):
    """Makes both of the sources in a folder without running the proofs, in a room that is empty; each stage is told as it begins."""
    own, compiled = unproved.kit(), room / "mt.o"
    stage("1 of 3: compiling the sources")
    lines = module_of(top, own, room)
    stage("2 of 3: compiling the library")
    (room / "library.ll").write_text("\n".join(lines) + "\n")
    words = [own / "toolchain/bin/clang", f"--sysroot={own}/toolchain", *flags_of(room), "-w", "-O3", "-fPIC", "-c", "-x", "ir", room / "library.ll", "-o", compiled]
    unproved.done("the library isn't compiled", words, room)
    stage("3 of 3: making the library")
    link(own, room, compiled)
