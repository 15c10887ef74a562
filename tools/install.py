#!/usr/bin/env python3
"""Installs what `make dist` packs below a prefix, `make install`, and takes it away again, `make uninstall`.

All files that it lays and all folders that it makes are listed in share/kbroker/installed; by that list they go again. Below DESTDIR
it lays them for a package, with the paths that they have without it. The program is the one that is built from the sources as they
stand: nothing is compiled here, where whoever calls this may be root.
"""

import argparse
import contextlib
import sys
from pathlib import Path

from chosen import demanded
from dist_archives import folders_of
from dist_files import File, files
from program import NAME

LIST = f"share/{NAME}/installed"


class Place:
    """The files below a prefix, by the paths that they have without DESTDIR."""

    def __init__(self, prefix, destdir):
        self.prefix, self.destdir = Path(prefix), destdir
        self.list = self.prefix / LIST

    def real(self, path):
        """Where a path is for now."""
        return Path(f"{self.destdir}{path}")

    def listed(self):
        """The files and the folders that an earlier installation has listed."""
        try:
            lines = self.real(self.list).read_text(encoding="utf-8").splitlines()
        except FileNotFoundError:
            return set(), set()
        return {it for it in lines if not it.endswith("/")}, {it.rstrip("/") for it in lines if it.endswith("/")}

    def make_folders(self, paths):
        """Makes the folders above these, and gives those that weren't there."""
        made = [it for it in folders_of(paths) if not self.real(it).is_dir()]
        for it in made:
            self.real(it).mkdir(parents=True)
            self.real(it).chmod(0o755)
        return {*made} - {"/"}

    def lay(self, path, file):
        """Lays a file. One that runs stays as it is, under no name."""
        new = self.real(f"{path}.new")
        new.write_bytes(file.data)
        new.chmod(0o755 if file.is_run else 0o644)
        new.replace(self.real(path))

    def install(self, found):
        """Lays files by their paths below the prefix, and takes those away that an earlier installation laid and this one hasn't."""
        placed = {str(self.prefix / path): file for path, file in found.items()}
        earlier, folders = self.listed()
        folders |= self.make_folders([*placed, str(self.list)])
        kept = sorted([*placed, str(self.list)])
        self.lay(self.list, File("".join(f"{it}\n" for it in [*kept, *(f"{it}/" for it in sorted(folders))]).encode()))
        for path, file in placed.items():
            self.lay(path, file)
        for it in earlier - {*kept}:
            self.real(it).unlink(missing_ok=True)

    def remove(self):
        """Takes all away that was listed, but for folders in which there is something else."""
        paths, folders = self.listed()
        if not paths:
            sys.exit(f"install: nothing is installed: there is no {self.real(self.list)}")
        for it in paths:
            self.real(it).unlink(missing_ok=True)
        for it in sorted(folders, reverse=True):
            with contextlib.suppress(OSError):
                self.real(it).rmdir()


def main():
    parser = argparse.ArgumentParser(description="Installs kbroker below a prefix, or takes it away.")
    parser.add_argument("--prefix", default="/usr/local", help="/usr/local, if none is named")
    parser.add_argument("--destdir", default="", help="a folder that stands for / as long as a package is made")
    parser.add_argument("--program", type=Path, help="another program than the one that is built here")
    parser.add_argument("--remove", action="store_true", help="takes away what was installed")
    given = parser.parse_args()
    if not given.prefix.startswith("/"):
        parser.error("a prefix begins with /")
    place = Place(given.prefix, given.destdir)
    try:
        if given.remove:
            place.remove()
        else:
            program = given.program.resolve() if given.program else demanded()
            place.install(files(program, f"{place.prefix}/bin"))
            print(f"install: {place.real(place.prefix / 'bin' / NAME)}", file=sys.stderr)
    except OSError as error:
        sys.exit(f"install: {error.filename}: {error.strerror}")


if __name__ == "__main__":
    main()
