#!/usr/bin/env python3
"""Packs the program with all that an installation of it has: `make dist`.

It writes into dist/ a tarball, a package for Debian, the wheel of kbroker_testing, their checksums, and the file PROOF, which says
what was proved of the program. The program is the proved one, where that is built from the sources as they stand, or else the one
without a proof, which is compiled where it isn't built. The same sources and the same program give the same bytes.
"""

import argparse
import hashlib
import os
import platform
import sys
from datetime import datetime, time, timezone
from pathlib import Path

from dist_archives import tar_gz
from dist_deb import package
from dist_files import DOCS, File, files, released, version
from program import NAME, ROOT
from prove import end_on_signals
from unproved import built, tell_of

LOCAL, DEBIAN = "/usr/local/bin", "/usr/bin"  # the folders of the command
SUMS = "SHA256SUMS"


def sums_of(contents):
    """The checksums of files by their names, as `sha256sum --check` reads them."""
    return "".join(f"{hashlib.sha256(data).hexdigest()}  {name}\n" for name, data in sorted(contents.items())).encode()


def tarball(found, moment):
    """The tarball of these files, with their checksums: its name, and what it holds."""
    top = f"{NAME}-{version()}-linux-{platform.machine()}"
    sums = File(sums_of({path: it.data for path, it in found.items()}))
    return f"{top}.tar.gz", tar_gz({**found, SUMS: sums}, moment, top)


def packed(program):
    """All that is written into dist/, by its name."""
    moment = int(datetime.combine(released(), time(), timezone.utc).timestamp())
    found = files(program, LOCAL)
    wheel = next(path for path in found if path.endswith(".whl"))
    made = dict([tarball(found, moment), package(files(program, DEBIAN), version(), moment)])
    made |= {Path(wheel).name: found[wheel].data, "PROOF": found[f"{DOCS}/PROOF"].data}
    return {**made, SUMS: sums_of(made)}


def main():
    parser = argparse.ArgumentParser(description="Packs the program with all that an installation of it has.")
    parser.add_argument("--program", type=Path, help="another program than the one that is built here")
    parser.add_argument("--into", type=Path, default=ROOT / "dist", metavar="FOLDER", help="in place of dist")
    given = parser.parse_args()
    end_on_signals()
    program = given.program.resolve() if given.program else built()
    tell_of(program)
    given.into.mkdir(parents=True, exist_ok=True)
    for name, data in packed(program).items():
        (given.into / name).write_bytes(data)
        print(f"dist: {os.path.relpath(given.into / name)}", file=sys.stderr)


if __name__ == "__main__":
    main()
