"""Archives that have the same bytes each time: what is packed is sorted, and has one owner and one time.

Python's standard library writes them: no tar, ar or dpkg-deb is needed.
"""

import gzip
import io
import tarfile
from typing import NamedTuple


class Packed(NamedTuple):
    """A file of an archive: its path, its bytes, and whether it is a program. Those of a link are its target."""

    path: str
    content: bytes
    is_program: bool = False
    is_link: bool = False


def header(path, time, kind, mode):
    """What an archive says of a file, a folder or a link: it belongs to root."""
    info = tarfile.TarInfo(path)
    info.type, info.mode, info.mtime = kind, mode, time
    info.uname = info.gname = "root"
    return info


def folders_of(files):
    """Every folder above the files, each below those that hold it."""
    parts = [it.path.split("/")[:-1] for it in files]
    return sorted({"/".join(it[:count]) for it in parts for count in range(1, len(it) + 1)})


def tarred(files, time, top=""):
    """A tar archive of files and the folders above them; each name there begins with top."""
    entries = {f"{it}/": None for it in folders_of(files)}
    entries.update((it.path, it) for it in files)
    target = io.BytesIO()
    with tarfile.open(fileobj=target, mode="w", format=tarfile.USTAR_FORMAT) as archive:
        for path in sorted(entries):
            file = entries[path]
            if file is None:
                archive.addfile(header(top + path.rstrip("/"), time, tarfile.DIRTYPE, 0o755))
            elif file.is_link:
                info = header(top + path, time, tarfile.SYMTYPE, 0o777)
                info.linkname = file.content.decode()
                archive.addfile(info)
            else:
                info = header(top + path, time, tarfile.REGTYPE, 0o755 if file.is_program else 0o644)
                info.size = len(file.content)
                archive.addfile(info, io.BytesIO(file.content))
    return target.getvalue()


def zipped(content):
    """What gzip -9n makes of these bytes: without a name and a time."""
    target = io.BytesIO()
    with gzip.GzipFile(filename="", mode="wb", compresslevel=9, fileobj=target, mtime=0) as stream:
        stream.write(content)
    return target.getvalue()


def joined(members, time):
    """An ar archive of pairs of a name and bytes, as deb(5) has it."""
    parts = [b"!<arch>\n"]
    for name, content in members:
        parts.append(f"{name:<16}{time:<12}{0:<6}{0:<6}{'100644':<8}{len(content):<10}`\n".encode())
        parts.append(content + b"\n" * (len(content) % 2))
    return b"".join(parts)
