"""The package for Debian, which needs none of Debian's tools: its files, what it needs of other packages, and what it tells of itself."""

import hashlib
import platform
import re
import struct
import sys

from dist_archives import ar, tar_gz, zipped
from dist_files import DOCS, MANUAL, PROGRAM, ZSH, File
from program import NAME

ARCHITECTURES = {"x86_64": "amd64"}
MAINTAINER = "Fivamelour maintainers <maintainers@users.noreply.fivamelour.example>"
# The libraries that the program may need, by the packages that have them.
LIBRARIES = {"libc6": ("libc.so.6", "libm.so.6", "libpthread.so.0", "libdl.so.2", "librt.so.1"), "libgcc-s1": ("libgcc_s.so.1",)}
LOADER = re.compile(r"ld-linux.*")
GLIBC = re.compile(rb"\0GLIBC_(\d+)\.(\d+)(?=\0|\.)")
# Of an ELF file of 64 bits: where its header tells of the sections, one of these, the kind of the one that tells what is needed, and
# the tag of an entry there that names a library.
TABLE_AT, COUNTS_AT, SECTION, DYNAMIC, NEEDED = 40, 58, struct.Struct("<IIQQQQII"), 6, 1
# Where Debian has what stands elsewhere below other prefixes.
ELSEWHERE = {ZSH: f"share/zsh/vendor-completions/_{NAME}", f"{DOCS}/LICENSE": f"{DOCS}/copyright"}
ZIPPED = {MANUAL: f"{MANUAL}.gz", f"{DOCS}/CHANGELOG.md": f"{DOCS}/changelog.gz"}
SETTINGS_FOLDER = f"etc/{NAME}"
CONTROL = """Package: {name}
Version: {version}
Section: net
Priority: optional
Architecture: {architecture}
Depends: {depends}
Installed-Size: {size}
Maintainer: {maintainer}
Description: Kafka broker in memory, for several tenants
 kbroker is a Kafka broker on one node that keeps everything in memory. It has
 transactions and fencing, idempotent producers, ACLs, read_committed fetches,
 consumer groups with their offsets, and SASL PLAIN. A test can stop it in the
 middle of a commit. The file PROOF beside its pages says what of this program
 was proved.
"""


def sections_of(program):
    """The kind, the place, the size and the link of each section of an ELF file."""
    [at], (size, count) = struct.unpack_from("<Q", program, TABLE_AT), struct.unpack_from("<HH", program, COUNTS_AT)
    rows = (SECTION.unpack_from(program, at + size * number) for number in range(count))
    return [(kind, place, length, link) for _, kind, _, _, place, length, link, _ in rows]


def needed_by(program):
    """The libraries that a program names, and the greatest version of the C library that it asks for."""
    sections = sections_of(program)
    _, place, length, link = next(it for it in sections if it[0] == DYNAMIC)
    _, names_at, names_length, _ = sections[link]
    names = program[names_at : names_at + names_length]
    entries = struct.iter_unpack("<QQ", program[place : place + length])
    libraries = [names[value : names.index(b"\0", value)].decode() for tag, value in entries if tag == NEEDED]
    return libraries, max((int(major), int(minor)) for major, minor in GLIBC.findall(names))


def depends(program):
    """The packages that a program needs."""
    libraries, (major, minor) = needed_by(program)
    packages = {library: package for package, those in LIBRARIES.items() for library in those}
    unknown = [it for it in libraries if it not in packages and not LOADER.match(it)]
    if unknown:
        sys.exit(f"dist: no package of Debian is known to have {', '.join(unknown)}")
    found = {packages[it] for it in libraries if it in packages}
    return ", ".join([f"libc6 (>= {major}.{minor})", *sorted(found - {"libc6"})])


def tree(files):
    """The files of an installation below /usr, where Debian has them."""
    moved = {ELSEWHERE.get(path, path): file for path, file in files.items() if path not in ZIPPED}
    moved |= {to: File(zipped(files[path].data)) for path, to in ZIPPED.items()}
    return {f"usr/{path}": file for path, file in moved.items()}


def control(files, version):
    """What the package tells of itself, and the checksums of its files."""
    told = {"name": NAME, "version": version, "architecture": ARCHITECTURES[platform.machine()], "maintainer": MAINTAINER}
    size = sum((len(it.data) + 1023) // 1024 for it in files.values())
    text = CONTROL.format(**told, depends=depends(files[f"usr/{PROGRAM}"].data), size=size)
    sums = "".join(f"{hashlib.md5(file.data).hexdigest()}  {path}\n" for path, file in sorted(files.items()))
    return {"control": File(text.encode()), "md5sums": File(sums.encode())}


def package(files, version, moment):
    """The package of these files: its name, and what it holds."""
    placed = tree(files)
    data = tar_gz(placed, moment, ".", [SETTINGS_FOLDER])
    members = {"debian-binary": b"2.0\n", "control.tar.gz": tar_gz(control(placed, version), moment, "."), "data.tar.gz": data}
    return f"{NAME}_{version}_{ARCHITECTURES[platform.machine()]}.deb", ar(members, moment)
