"""What install.sh does: what it puts where, what it takes away, what it refuses, and what is left of one that is killed."""
from __future__ import annotations

import os
import pathlib
import shutil
import stat
import subprocess
import sys
from collections.abc import Iterator

from release_archives import Case, ran
from release_unpacked import Places, all_below, callers, prints_examples, tools_print

NOBODY = 65534
LIST = "share/mt/installed"
LINKS = {
    "bin/mt-prompt": "share/mt/tools/prompt", "bin/mt-rehearse": "share/mt/tools/rehearse", "bin/mt-picture": "share/mt/tools/picture",
    "bin/mt-controller": "share/mt/tools/controller", "share/mt/lib/mt.py": "lib/mt/mt.py",
    "lib/mt/libmt.so": "lib/libmt.so", "share/mt/mt": "bin/mt",
    **{f"share/bash-completion/completions/mt-{it}": "share/bash-completion/completions/mt" for it in ("prompt", "rehearse", "picture", "controller")},
}
MOVED = {"lib/mt.py": "lib/mt/mt.py", "man/mt.1": "share/man/man1/mt.1", "completions/mt.bash": "share/bash-completion/completions/mt"}
# A command that kills the install of which it is a part, at one of its calls.
KILLS = """#!/bin/sh
echo >> "$COUNT"
[ "$(wc -l < "$COUNT")" != "$AT" ] || kill -KILL 0
exec {command} "$@"
"""


class Installer:
    """install.sh of an unpacked folder."""

    def __init__(self, folder: pathlib.Path) -> None:
        self.folder = folder

    def run(self, *words: object, **how: object) -> subprocess.CompletedProcess[str]:
        return ran([self.folder / "install.sh", *words], how.pop("cwd", self.folder.parent), **how)

    def is_done(self, *words: object, **how: object) -> bool:
        """Whether it ends well, and says a line."""
        done = self.run(*words, **how)
        if done.returncode or done.stdout.count("\n") != 1:
            print(f"install.sh {' '.join(map(str, words))}: status {done.returncode}: {done.stdout[-800:]}")
        return done.returncode == 0 and done.stdout.count("\n") == 1

    def is_refused(self, at: pathlib.Path, told: str, *words: object, **how: object) -> bool:
        """Whether it ends with status 1, says this, and changes nothing in a folder."""
        before = all_below(at)
        done = self.run(*words, **how)
        is_so = done.returncode == 1 and told in done.stdout and all_below(at) == before
        if not is_so:
            print(f"install.sh {' '.join(map(str, words))}: status {done.returncode}, not 1 with '{told}': {done.stdout[-400:]}")
        return is_so

    def is_misused(self, *words: object, **how: object) -> bool:
        """Whether it ends with status 2, and says how it is called."""
        done = self.run(*words, **how)
        return done.returncode == 2 and "usage: ./install.sh PREFIX" in done.stdout

    def places(self) -> dict[str, bytes]:
        """What has to be installed, by its place."""
        files = {str(path.relative_to(self.folder)): path for path in self.folder.rglob("*") if path.is_file() and not path.is_symlink()}
        own = ("bin/", "lib/", "include/")
        return {MOVED.get(name) or (name if name.startswith(own) else f"share/mt/{name}"): path.read_bytes() for name, path in files.items() if name != "SHA256SUMS"}

    def is_installed(self, root: pathlib.Path) -> bool:
        """Whether all stands below a folder as it must, and nothing else."""
        there = [path for path in root.rglob("*") if path.is_symlink() or path.is_file()]
        found = {str(path.relative_to(root)): path for path in there}
        wanted = {**self.places(), LIST: found[LIST].read_bytes() if LIST in found else b""}
        files = {name: path.read_bytes() for name, path in found.items() if not path.is_symlink()}
        links = {name: str(path.resolve().relative_to(root.resolve())) for name, path in found.items() if path.is_symlink()}
        modes = {stat.S_IMODE(path.lstat().st_mode) for path in there if not path.is_symlink()}
        runs = {name for name, path in found.items() if not path.is_symlink() and os.access(path, os.X_OK)} & {"bin/mt", "share/mt/tools/prompt", "share/mt/install.sh"}
        return files == wanted and links == LINKS and modes == {0o644, 0o755} and len(runs) == 3


def there_and_back(room: pathlib.Path, installer: Installer) -> Iterator[Case]:
    """An install, one more, what is installed runs, and all is taken away."""
    prefix, cwd = room / "a prefix" / "usr local", room / "far away"
    prefix.parent.mkdir()
    cwd.mkdir()
    yield "installed below a new folder", installer.is_done(prefix) and installer.is_installed(prefix)
    before = all_below(prefix)
    yield "installed again", installer.is_done(f"{prefix}//", umask=0o077) and all_below(prefix) == before
    yield "installed, the examples", prints_examples(prefix / "share/mt", [prefix / "bin/mt"])
    for name, is_so in tools_print(prefix / "share/mt", cwd, prefix / "bin/mt", prefix / "bin/mt-prompt", prefix / "bin/mt-rehearse"):
        yield f"installed, {name}", is_so
    done = ran([prefix / "bin/mt-picture", prefix / "share/mt/examples/whole_move.script"], cwd)
    yield "installed, the picture", done.returncode == 0 and (cwd / "whole_move.html").exists()
    done = ran([prefix / "bin/mt-controller", "--log", f"sqlite:{cwd}/moves.db", "--batch", "commerce"], cwd, input="keyspace commerce\n", stdin=None)
    yield "installed, the controller", (done.returncode, done.stdout) == (0, "ok\n")
    for name, is_so in callers(Places(prefix / "share/mt", prefix / "include", prefix / "lib", prefix / "lib/mt"), cwd):
        yield f"installed, {name}", is_so
    yield "installed, nothing is written", all_below(prefix) == before
    ran([sys.executable, "-c", "import mt"], cwd, env={"PYTHONPATH": str(prefix / "lib/mt")})
    yield "Python keeps something of its module", (prefix / "lib/mt/__pycache__").is_dir()
    copy = Installer(prefix / "share/mt")
    yield "its own copy installs nothing", copy.is_refused(prefix.parent, "isn't an unpacked archive", room / "a prefix/other")
    yield "its own copy takes all away", copy.is_done("--uninstall", prefix) and all_below(prefix.parent) == {}
    yield "nothing is taken away twice", installer.is_refused(prefix.parent, "which an install leaves", "--uninstall", prefix)


def beside_others(room: pathlib.Path, installer: Installer) -> Iterator[Case]:
    """A folder that has files of others, and one from which an earlier version had more."""
    prefix = room / "shared"
    for name in ("bin/mine", "share/mt/mine", "share/man/man1/mine.1"):
        (prefix / name).parent.mkdir(parents=True, exist_ok=True)
        (prefix / name).write_text("mine")
    before = all_below(prefix)
    yield "installed beside others", installer.is_done(prefix)
    (prefix / "share/mt/docs/LATER.md").write_text("mine")
    installer.run("--uninstall", prefix)
    added = {name for name in all_below(prefix) if name not in before}
    yield "what others have stays", added == {"share/mt/docs", "share/mt/docs/LATER.md"} and before.items() <= all_below(prefix).items()
    shutil.rmtree(prefix / "share/mt/docs")
    installer.run(prefix)
    (prefix / "share/mt/old.md").write_text("of an earlier version")
    listed = prefix / LIST
    listed.write_text("".join(sorted([*listed.read_text().splitlines(keepends=True), "share/mt/old.md\n"])))
    yield "what only an earlier version had goes", installer.is_done(prefix) and not (prefix / "share/mt/old.md").exists()
    yield "and then all goes", installer.is_done("--uninstall", prefix) and all_below(prefix) == before


def for_packages(room: pathlib.Path, installer: Installer) -> Iterator[Case]:
    """DESTDIR."""
    to = room / "a package"
    variables = {**os.environ, "DESTDIR": str(to)}
    yield "below DESTDIR", installer.is_done("/opt/mt", env=variables) and installer.is_installed(to / "opt/mt")
    yield "taken away there", installer.is_done("--uninstall", "/opt/mt", env=variables) and set(all_below(to)) == {"opt"}
    yield "a DESTDIR that isn't absolute", installer.is_misused("/opt/mt", env={**os.environ, "DESTDIR": "there"})


def misuses(installer: Installer) -> Iterator[Case]:
    """Command lines that aren't understood."""
    for words in ((), ("/a", "/b"), ("there",), ("",), ("--purge", "/a"), ("--uninstall",), ("--uninstall", "there"), ("--uninstall", "/a", "/b"), ("./a",)):
        yield f"install.sh {' '.join(words)}", installer.is_misused(*words)
    done = installer.run("--help")
    yield "its help", done.returncode == 0 and done.stdout.startswith("usage: ./install.sh PREFIX")


def in_the_way(room: pathlib.Path, installer: Installer) -> Iterator[Case]:
    """What keeps it from installing: then nothing is."""
    at = room / "in the way"
    cases = {"bin/mt": "was not installed by this", "share/mt/docs/SCRIPT.md": "was not installed by this", "lib": "is no folder", "share/man": "is no folder"}
    for name, told in cases.items():
        (at / name).parent.mkdir(parents=True)
        (at / name).write_text("another")
        yield f"a file {name} in the way", installer.is_refused(at, told, at)
        shutil.rmtree(at)
    (at / "bin/mt").mkdir(parents=True)
    yield "a folder in the way", installer.is_refused(at, "bin/mt is there", at)
    (at / "bin/mt").rmdir()
    (at / "bin/mt").symlink_to("nowhere")
    yield "a link in the way", installer.is_refused(at, "bin/mt is there", at)
    shutil.rmtree(at)
    at.mkdir()
    (at / "file").touch()
    yield "PREFIX is a file", installer.is_refused(at, "is no folder", at / "file")
    yield "no folder above PREFIX", installer.is_refused(at, "there is no folder", at / "none/here")
    installer.run(at)
    (at / "share/mt/docs/SCRIPT.md").unlink()
    (at / "share/mt/docs/SCRIPT.md").mkdir()
    yield "a folder where a file was installed", installer.is_refused(at, "SCRIPT.md is a folder", at)
    (room / "outside").write_text("mine")
    with (at / LIST).open("a") as listed:
        listed.write("share/mt/../../../outside\n")
    yield "a list that leads out", installer.is_refused(at, "no install wrote", "--uninstall", at) and (room / "outside").exists()


def damaged(room: pathlib.Path, installer: Installer) -> Iterator[Case]:
    """Archives that aren't whole."""
    other, to = room / "damaged", room / "to"
    to.mkdir()
    for name in ("bin/mt", "docs/SCRIPT.md", "install.sh"):
        shutil.copytree(installer.folder, other, symlinks=True)
        with (other / name).open("ab") as file:
            file.write(b"\n")
        yield f"{name} is changed", Installer(other).is_refused(to, "isn't the archive as it was made", to)
        shutil.rmtree(other)
    shutil.copytree(installer.folder, other, symlinks=True)
    (other / "lib/libmt.so").unlink()
    yield "a file is missing", Installer(other).is_refused(to, "isn't the archive as it was made", to)
    (other / "SHA256SUMS").unlink()
    yield "the sums are missing", Installer(other).is_refused(to, "isn't an unpacked archive", to)


def without_permission(room: pathlib.Path, installer: Installer) -> Iterator[Case]:
    """Folders in which nothing may be written, for a user that isn't root."""
    at = room / "of another"
    (at / "share").mkdir(parents=True)
    how = {"user": NOBODY, "group": NOBODY, "extra_groups": []} if os.geteuid() == 0 else {}
    for closed in (at, at / "share"):
        at.chmod(0o777 if closed != at else 0o555)
        closed.chmod(0o555)
        yield f"{closed.name} can't be written", installer.is_refused(at, "can't be written", at, **how)
    at.chmod(0o755)


def is_mended(at: pathlib.Path, installer: Installer, is_installed_over: bool) -> bool:
    """Whether what is left of an install that was killed can be taken away, or installed over and then taken away. Before its list is there it has made two folders."""
    if set(all_below(at)) <= {"share", "share/mt"}:
        return True
    if is_installed_over and not (installer.is_done(at) and installer.is_installed(at)):
        return False
    return installer.is_done("--uninstall", at) and all_below(at) == {}


def killed(room: pathlib.Path, installer: Installer) -> Iterator[Case]:
    """An install that is killed as it calls a command, at calls of all along."""
    at, count, tools = room / "killed", room / "count", room / "tools"
    tools.mkdir()
    files = len((installer.folder / "SHA256SUMS").read_text().splitlines())
    moments = {"cp": (1, 2, files // 2, files + 1), "mv": (1, 2), "ln": (4,)}
    for number, (command, moment) in enumerate((it, moment) for it in moments for moment in moments[it]):
        at.mkdir()
        count.write_text("")
        (tools / command).write_text(KILLS.format(command=shutil.which(command)))
        (tools / command).chmod(0o755)
        variables = {**os.environ, "PATH": f"{tools}:{os.environ['PATH']}", "COUNT": str(count), "AT": str(moment), "TMPDIR": str(room)}
        status = installer.run(at, env=variables, start_new_session=True).returncode
        (tools / command).unlink()
        yield f"killed at {command} {moment}", status == -9 and is_mended(at, installer, number % 2 == 0)
        shutil.rmtree(at)


def installs(room: pathlib.Path, folder: pathlib.Path) -> Iterator[Case]:
    """Of install.sh of the unpacked folder whether it does what it must."""
    installer = Installer(folder)
    yield from there_and_back(room, installer)
    yield from beside_others(room, installer)
    yield from for_packages(room, installer)
    yield from misuses(installer)
    yield from in_the_way(room, installer)
    yield from damaged(room, installer)
    yield from without_permission(room, installer)
    yield from killed(room, installer)
