"""Packs a folder so that the same files make the same bytes, whoever packs them and when."""
from __future__ import annotations

import gzip
import os
import pathlib
import tarfile
import tempfile


def entry(path: pathlib.Path, name: str, time: int) -> tarfile.TarInfo:
    """The entry of a file, a folder or a link."""
    info = tarfile.TarInfo(name)
    info.mtime = time
    info.mode = 0o755
    if path.is_symlink():
        info.type, info.linkname, info.mode = tarfile.SYMTYPE, os.readlink(path), 0o777
    elif path.is_dir():
        info.type = tarfile.DIRTYPE
    else:
        info.size = path.stat().st_size
        info.mode = 0o755 if os.access(path, os.X_OK) else 0o644
    return info


def pack(folder: pathlib.Path, time: int, archive: pathlib.Path) -> None:
    """Packs a folder with all in it, by sorted names, with this time. The archive takes its place once it is whole."""
    paths = sorted([folder, *folder.rglob("*")])
    handle, made = tempfile.mkstemp(dir=archive.parent, prefix=f".{archive.name}.")
    try:
        with os.fdopen(handle, "wb") as file:
            with gzip.GzipFile("", "wb", 6, file, mtime=0) as packed, tarfile.open(fileobj=packed, mode="w", format=tarfile.USTAR_FORMAT) as tar:
                for path in paths:
                    info = entry(path, str(path.relative_to(folder.parent)), time)
                    if info.isreg():
                        with path.open("rb") as content:
                            tar.addfile(info, content)
                    else:
                        tar.addfile(info)
        os.chmod(made, 0o644)
        os.replace(made, archive)
    except BaseException:
        os.unlink(made)
        raise
