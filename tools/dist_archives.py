"""Archives that come out the same for the same files: a tarball, and an `ar` archive as Debian's packages are."""

import gzip
import io
import tarfile
from pathlib import PurePosixPath

LEVEL = 6  # of compression; a higher one takes three times as long for a hundredth
AR_HEAD, AR_END = b"!<arch>\n", b"`\n"


def zipped(data):
    """Data that is compressed, without a name or a time."""
    return gzip.compress(data, LEVEL, mtime=0)


def folders_of(paths):
    """The folders above these, the outer ones first."""
    return sorted({str(above) for path in paths for above in PurePosixPath(path).parents})


def entry(path, moment, data=None, is_run=False):
    """An entry of a tarball: a file of root's with this data, or a folder."""
    made = tarfile.TarInfo(path)
    made.mtime, made.uname, made.gname = moment, "root", "root"
    made.type, made.size = (tarfile.DIRTYPE, 0) if data is None else (tarfile.REGTYPE, len(data))
    made.mode = 0o755 if data is None or is_run else 0o644
    return made


def tar_gz(files, moment, top, empty=()):
    """A tarball of these files and of folders that are empty, all below one folder and as old as this moment."""
    to = io.BytesIO()
    with tarfile.open(fileobj=to, mode="w", format=tarfile.GNU_FORMAT) as archive:
        for path in folders_of([*files, *(f"{it}/x" for it in empty)]):
            archive.addfile(entry(top if path == "." else f"{top}/{path}", moment))
        for path, file in sorted(files.items()):
            archive.addfile(entry(f"{top}/{path}", moment, file.data, file.is_run), io.BytesIO(file.data))
    return zipped(to.getvalue())


def ar(members, moment):
    """An `ar` archive of members by their names."""
    parts = [AR_HEAD]
    for name, data in members.items():
        head = f"{name:<16}{moment:<12}{0:<6}{0:<6}{100644:<8}{len(data):<10}".encode()
        parts += [head, AR_END, data, b"\n" * (len(data) % 2)]
    return b"".join(parts)
