"""Root folders that hold the files of few packages of this system, in which the archive is unpacked, installed and run."""
from __future__ import annotations

import os
import pathlib
import re
import shutil
import stat
import subprocess
from collections.abc import Iterator

from known_scripts import examples
from release_archives import TOP, Case, ran
from release_unpacked import DRAWN, PYTHON, REHEARSED, STATUS_OF_PLAN, TYPED

# What `mt` and install.sh need; what callers in C, those in Python with the tools, and readers of the man page need besides.
LEAST = ("libc6", "dash", "coreutils")
TO_LINK = ("gcc", "libc6-dev")
FOR_PYTHON = ("python3",)
TO_READ = ("man-db",)
FOLDERS = ("bin", "lib", "lib64", "sbin")  # those that may be links into /usr
PACKAGES = "${Package}\t${db:Status-Abbrev}\t${Pre-Depends}, ${Depends}\n"
NULL = os.makedev(1, 3)
FOLDER = "/opt/unpacked"
FIND = "cd / && ls -d -- *; ls -R /usr/local /opt"


def installed() -> dict[str, list[list[str]]]:
    """The packages of this system, each with what it needs: lists of names of which one has to be there."""
    found = {}
    for line in subprocess.run(["dpkg-query", "-W", "-f", PACKAGES], stdout=subprocess.PIPE, check=True, text=True).stdout.splitlines():
        name, state, needs = line.split("\t")
        if state.startswith("ii"):
            found[name] = [re.findall(r"(?:^|\|)\s*([\w.+-]+)", need) for need in needs.split(",")]
    return found


def with_needs(names: tuple[str, ...], there: dict[str, list[list[str]]]) -> list[str]:
    """These packages and those that they need, as far as they are installed under these names."""
    found, left = [], list(names)
    while left:
        name = left.pop()
        if name not in found:
            found.append(name)
            left += [next(it for it in need if it in there) for need in there[name] if any(it in there for it in need)]
    return found


def copy_packages(root: pathlib.Path, names: list[str]) -> None:
    """Copies the files of packages below a folder, from where they stand here."""
    listed = subprocess.run(["dpkg-query", "-L", *names], stdout=subprocess.PIPE, check=True, text=True).stdout.splitlines()
    for name in sorted(set(listed)):
        path, to = pathlib.Path(name), root / name.lstrip("/")
        if name.startswith(("/usr/share/doc/", "/usr/share/locale/")) or not os.path.lexists(path):
            continue
        if path.is_symlink():
            to.parent.mkdir(parents=True, exist_ok=True)
            if not os.path.lexists(to):
                to.symlink_to(os.readlink(path))
        elif path.is_dir():
            to.mkdir(parents=True, exist_ok=True)
        elif path.is_file() and not to.exists():
            to.parent.mkdir(parents=True, exist_ok=True)
            shutil.copy2(path, to)


def make_root(root: pathlib.Path, names: list[str], archive: pathlib.Path) -> None:
    """Makes a root folder of packages, with the archive unpacked in it."""
    for name in ("tmp", "dev", "usr/local", FOLDER.lstrip("/"), *(f"usr/{it}" for it in FOLDERS)):
        (root / name).mkdir(parents=True)
    for name in FOLDERS:
        if pathlib.Path("/", name).is_symlink():
            (root / name).symlink_to(f"usr/{name}")
        else:
            (root / name).mkdir()
    copy_packages(root, names)
    if not (root / "bin/sh").exists():
        (root / "bin/sh").symlink_to("dash")
    try:
        os.mknod(root / "dev/null", stat.S_IFCHR | 0o666, NULL)
    except PermissionError:  # root in a container; a file does
        (root / "dev/null").touch()
    subprocess.run(["tar", "xzf", archive, "-C", root / FOLDER.lstrip("/"), "--strip-components=1"], check=True)


def may_change_root(room: pathlib.Path) -> bool:
    """Whether whoever runs this may run chroot."""
    return bool(shutil.which("chroot")) and ran(["chroot", "/", "/bin/true"], room).returncode == 0


class Root:
    """A root folder, in which commands are run."""

    def __init__(self, at: pathlib.Path) -> None:
        self.at = at

    def run(self, command: str, text: str | None = None) -> subprocess.CompletedProcess[str]:
        """A command of the shell, in the unpacked folder, with none of the variables from here."""
        words = [shutil.which("chroot"), self.at, "/bin/sh", "-c", f"cd {FOLDER} && {command}"]
        env = {"PATH": "/usr/local/bin:/usr/bin:/bin", "LC_ALL": "C", "HOME": "/"}
        how = {"input": text, "stdin": None} if text is not None else {}
        return ran(words, self.at, env=env, **how)

    def prints(self, command: str, wanted: str, text: str | None = None, status: int = 0) -> bool:
        """Whether a command prints this, with this status."""
        done = self.run(command, text)
        if (done.returncode, done.stdout) != (status, wanted):
            print(f"{command}: status {done.returncode}: {done.stdout[-600:]}")
        return (done.returncode, done.stdout) == (status, wanted)

    def plays(self, program: str) -> bool:
        """Whether a program prints of each example what it must."""
        return all(self.prints(f"{program} run {' '.join(words)}", output, script) for _, words, script, output in examples())


def least(root: Root) -> Iterator[Case]:
    """With a C library, a shell and coreutils: the program, and an install that leaves nothing."""
    before = root.run(FIND).stdout
    yield "the examples, unpacked", root.plays("./mt")
    yield "an install", root.run("./install.sh /usr/local").returncode == 0
    yield "the examples, installed", root.plays("mt")
    yield "a race", root.run("mt race --clients 4").stdout.endswith("agree\n")
    yield "nothing is left", root.run("/usr/local/share/mt/install.sh --uninstall /usr/local").returncode == 0 and root.run(FIND).stdout == before


def linking(root: Root) -> Iterator[Case]:
    """With a C compiler: callers of both libraries."""
    script, output = example(DRAWN)
    for name, linked in {"the library": "/usr/local/lib/libmt.a", "the shared library": "-lmt -Wl,-rpath,/usr/local/lib"}.items():
        built = root.run(f"gcc -Wall -Werror -o /tmp/caller embed/run.c -I /usr/local/include -L /usr/local/lib {linked}")
        yield f"a caller of {name}", built.returncode == 0 and root.prints("/tmp/caller commerce customer", output, script)


def example(name: str) -> tuple[str, str]:
    """An example's script and its output."""
    return next((script, output) for found, _, script, output in examples() if found == name)


def with_python(root: Root) -> Iterator[Case]:
    """With Python: its library, and the tools."""
    script, output = example(DRAWN)
    yield "a caller in Python", root.prints(f"PYTHONPATH=/usr/local/lib/mt python3 -c '{PYTHON}' commerce customer", output, script)
    yield "the prompt", "F2 NoTable" in root.run("mt-prompt", TYPED).stdout
    yield "the controller", root.prints("mt-controller --log sqlite:/tmp/moves.db --batch commerce customer", output, script)
    yield "the rehearsal", root.prints(f"mt-rehearse {REHEARSED}", (TOP / f"{REHEARSED}.output").read_text(), status=STATUS_OF_PLAN)
    yield "the picture", root.run(f"mt-picture {DRAWN} -o /tmp/page.html && cat /tmp/page.html").stdout.count("</script>") > 0


def reading(root: Root) -> Iterator[Case]:
    """With man: the page."""
    done = root.run("MANPATH=/usr/local/share/man MAN_KEEP_FORMATTING= man -P cat mt")
    yield "the man page", done.returncode == 0 and "SYNOPSIS" in done.stdout and "mt run [KEYSPACE].." in done.stdout and "WARNING" not in done.stdout


def roots(room: pathlib.Path, archive: pathlib.Path) -> Iterator[Case]:
    """Of the archive in such root folders whether all runs there."""
    if not shutil.which("dpkg-query") or not may_change_root(room):
        yield "in a root folder, which takes dpkg, and a user that may run chroot", None
        return
    there = installed()
    root = Root(room / "least")
    make_root(root.at, with_needs(LEAST, there), archive)
    yield from ((f"in a root folder, {name}", is_so) for name, is_so in least(root))
    parts = {TO_LINK: linking, FOR_PYTHON: with_python, TO_READ: reading}
    more = tuple(it for names in parts for it in names if it in there)
    root = Root(room / "more")
    make_root(root.at, with_needs((*LEAST, *more), there), archive)
    root.run("./install.sh /usr/local")
    for names, part in parts.items():
        if set(names) <= set(there):
            yield from ((f"in a root folder, {name}", is_so) for name, is_so in part(root))
        else:
            yield f"in a root folder, what needs {' and '.join(names)}", None
