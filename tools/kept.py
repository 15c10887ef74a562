"""Keeps on this machine what tries of edits came to, by checksums of all that they rest on, as rt keeps what it has proved.

It stands beside the toolchain, as what rt keeps does, or else in the user's cache: outside each checkout, so that a fresh one
finds it. With `KBROKER_ANEW=1` in the environment all is tried, whatever is kept.
"""

import contextlib
import glob
import hashlib
import json
import os
import shutil
import stat
import tempfile
import time
from pathlib import Path

ANEW = "KBROKER_ANEW"
NAME = "kbroker-kept"
NAME_IN_CACHE = "kbroker"
UNUSED = 30 * 24 * 3600  # seconds after which an entry that nobody used is dropped
# What names the toolchain, and what else of it `rt try` reads: of these files the size and the time stand for what is in them.
NAMED_BY = "KIT-ID", "WHAT", "bin/rt", "bin/rtlib.py"
READ = "bin", "toolchain", "c", "rattle/*/src", "rattle/examples/*/src", "rlibs/*/format"


def kit():
    """The folder of the toolchain, or None where rt isn't on the PATH, or is no part of one."""
    rt = shutil.which("rt")
    folder = Path(rt).resolve().parent.parent if rt else None
    return folder if folder and (folder / "KIT-ID").is_file() else None


def files_read(folder):
    """The files of the toolchain that `rt try` reads."""
    for top in (it for pattern in READ for it in glob.glob(f"{folder}/{pattern}")):
        if os.path.isfile(top):
            yield top
        for at, _, names in os.walk(top):
            yield from (f"{at}/{it}" for it in names if not at.endswith("__pycache__"))


def sum_of_kit():
    """A checksum of the toolchain, and of what the environment tells it; None where there is none."""
    folder = kit()
    if folder is None:
        return None
    texts = [(it, (folder / it).read_bytes()) for it in NAMED_BY if (folder / it).is_file()]
    files = [(it, os.lstat(it)) for it in sorted(files_read(folder))]
    files = [(name, it.st_mode, it.st_size, it.st_mtime_ns) for name, it in files]
    return sum_of(texts, files, sorted(it for it in os.environ.items() if it[0].startswith("RT_")))


def sum_of(*parts):
    """A checksum of texts, numbers and lists of them."""
    return hashlib.sha256(repr(parts).encode()).hexdigest()


def places():
    """Where entries may stand, the better place first."""
    cache = os.environ.get("XDG_CACHE_HOME") or os.path.expanduser("~/.cache")
    found = [kit().parent / NAME] if kit() else []
    return found + [Path(cache) / NAME_IN_CACHE] * os.path.isabs(cache)


def is_own(place):
    """Whether a folder is there, or could be made, that only this user writes to."""
    try:
        place.mkdir(mode=0o700, parents=True, exist_ok=True)
        found = place.lstat()
        if not stat.S_ISDIR(found.st_mode) or found.st_uid != os.geteuid():
            return False
        place.chmod(0o700)
    except OSError:
        return False
    return os.access(place, os.W_OK | os.X_OK)


class Kept:
    """What tries came to. An entry's name is the checksum of all that a try rests on, so it never goes out of date. One that
    isn't whole, or can't be read, counts for nothing. Where the toolchain or a folder of this user's lacks, nothing is kept."""

    def __init__(self):
        self.kit = sum_of_kit()
        self.folder = next((it for it in places() if is_own(it)), None) if self.kit else None

    def find(self, name):
        """What the try of this name came to, or None. What is found counts as used."""
        if self.folder is None or os.environ.get(ANEW):
            return None
        try:
            found = json.loads((self.folder / name).read_bytes())
            os.utime(self.folder / name)
            return found["came"] if found["name"] == name else None
        except (OSError, ValueError, KeyError, TypeError):
            return None

    def keep(self, name, came):
        """Keeps what a try came to, unless the toolchain changed meanwhile. It is written apart and renamed, so that nobody
        reads half of it. Where the disk is full it isn't kept."""
        with contextlib.suppress(OSError):
            if self.folder is None or sum_of_kit() != self.kit:
                return
            with tempfile.NamedTemporaryFile("w", prefix="new-", dir=self.folder, delete=False, encoding="utf-8") as it:
                json.dump({"name": name, "came": came}, it)
            os.replace(it.name, self.folder / name)

    def drop_unused(self):
        """Drops the entries that nobody used for long, and what runs that were killed left."""
        for it in self.folder.iterdir() if self.folder else []:
            with contextlib.suppress(OSError):
                if it.stat().st_mtime < time.time() - UNUSED:
                    it.unlink()
