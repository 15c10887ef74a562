"""What an installation of kbroker has: its files by their paths below a prefix, as `make dist` packs and `make install` lays them."""

import re
import sys
import tempfile
from datetime import date
from pathlib import Path
from typing import NamedTuple

import dist_pages
from dist_proof import proof
from program import NAME, ROOT

sys.path.insert(0, str(ROOT / "python"))

try:
    import build_backend
except ModuleNotFoundError:  # it reads TOML
    sys.exit("dist: it needs Python 3.11 or later")

VERSION_FILE = ROOT / "crates/arguments/src/help.rt"
VERSION = re.compile(r'^pub const VERSION: &str = "(.+)";$', re.M)
CHANGES = ROOT / "CHANGELOG.md"
PAGES = "GLOSSARY.md", "OPERATING.md", "PROMISES.md", "TESTING_WITH_KBROKER.md", "THEOREM.md", "USING.md", "transfer.svg"
UNIT_BIN = "/usr/bin"  # where the unit of packaging/ has the command
DOCS = f"share/doc/{NAME}"
COMMAND, PROGRAM = f"bin/{NAME}", f"libexec/{NAME}/{NAME}"
MANUAL, UNIT = f"share/man/man1/{NAME}.1", f"lib/systemd/system/{NAME}.service"
BASH, ZSH = f"share/bash-completion/completions/{NAME}", f"share/zsh/site-functions/_{NAME}"


class File(NamedTuple):
    """A file: what it holds, and whether it is run."""

    data: bytes
    is_run: bool = False


def found_in(path, pattern, what):
    """What a pattern finds in a file of the repository."""
    found = pattern.search(path.read_text(encoding="utf-8"))
    if not found:
        sys.exit(f"dist: {path.relative_to(ROOT)} has no {what}")
    return found[1]


def version():
    """The version, which stands beside the help of the program, and in no other place by itself."""
    return found_in(VERSION_FILE, VERSION, "line `pub const VERSION`")


def released():
    """The day of this version, as the list of changes has it. All that is packed is as old."""
    heading = f"## {version()}, "
    pattern = re.compile(rf"^{re.escape(heading)}(\d{{4}}-\d\d-\d\d)$", re.M)
    return date.fromisoformat(found_in(CHANGES, pattern, f"heading `{heading}YEAR-MONTH-DAY`"))


def wheel():
    """The wheel of kbroker_testing: its name, and what it holds."""
    with tempfile.TemporaryDirectory() as folder:
        name = build_backend.build_wheel(folder)
        return name, Path(folder, name).read_bytes()


def documents():
    """The pages that people read, and the examples, as the repository has them."""
    paths = [ROOT / "LICENSE", ROOT / "README.md", CHANGES, *(ROOT / "docs" / it for it in PAGES)]
    paths += sorted(it for it in (ROOT / "examples").iterdir() if it.is_file() and not it.name.startswith("."))
    return {f"{DOCS}/{it.relative_to(ROOT)}": File(it.read_bytes()) for it in paths}


def pages(program):
    """The manual page and the completions."""
    helps = dist_pages.helps_of(program)
    texts = {MANUAL: dist_pages.manual(helps, version(), str(released())), BASH: dist_pages.bash(helps), ZSH: dist_pages.zsh(helps)}
    return {path: File(text.encode()) for path, text in texts.items()}


def files(program, bin_folder):
    """All files of an installation of this program, whose command stands in this folder."""
    name, data = wheel()
    unit = (ROOT / "packaging/kbroker.service").read_text().replace(f"{UNIT_BIN}/{NAME}", f"{bin_folder}/{NAME}")
    return {
        COMMAND: File((ROOT / NAME).read_bytes(), is_run=True),
        PROGRAM: File(program.read_bytes(), is_run=True),
        UNIT: File(unit.encode()),
        f"share/{NAME}/{name}": File(data),
        f"{DOCS}/PROOF": File(proof(program, version()).encode()),
        **pages(program),
        **documents(),
    }
