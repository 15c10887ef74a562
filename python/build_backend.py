"""Builds the wheel of kbroker_testing for pip (PEP 517, PEP 660): `pip install ./python` needs no network, and nothing but Python.

pyproject.toml says what the wheel is called and what it needs. The same sources give the same bytes.
"""

import base64
import hashlib
import zipfile
from pathlib import Path

try:
    import tomllib
except ModuleNotFoundError:  # before Python 3.11
    import tomli as tomllib

HERE = Path(__file__).resolve().parent
PACKAGE = "kbroker_testing"
LICENSE = HERE.parent / "LICENSE"
TAG = "py3-none-any"
MOMENT = 1980, 1, 1, 0, 0, 0  # the first that a zip file can tell
MODE = 0o100644


def project():
    """What pyproject.toml says of the package."""
    return tomllib.loads((HERE / "pyproject.toml").read_text(encoding="utf-8"))["project"]


def metadata(told):
    """The core metadata of the package."""
    fields = {"Metadata-Version": "2.1", "Name": told["name"], "Version": told["version"], "Summary": told["description"]}
    fields |= {"Requires-Python": told["requires-python"], "License": told["license"]["text"]}
    return "".join(f"{name}: {text}\n" for name, text in fields.items())


def entry_points(told):
    """The entry points of the package, by which pytest finds its fixtures."""
    groups = told.get("entry-points", {})
    return "\n".join("".join([f"[{group}]\n", *(f"{name} = {it}\n" for name, it in named.items())]) for group, named in groups.items())


def sources():
    """The modules of the package, and the file that says that they have types, by their names in the wheel."""
    files = sorted([*(HERE / PACKAGE).glob("*.py"), HERE / PACKAGE / "py.typed"])
    return {f"{PACKAGE}/{it.name}": it.read_bytes() for it in files}


def described(told):
    """The files that describe the package, but for the record of all files."""
    wheel = f"Wheel-Version: 1.0\nGenerator: kbroker\nRoot-Is-Purelib: true\nTag: {TAG}\n"
    texts = {"METADATA": metadata(told), "WHEEL": wheel, "entry_points.txt": entry_points(told)}
    found = {name: text.encode() for name, text in texts.items()}
    return found | ({"LICENSE": LICENSE.read_bytes()} if LICENSE.is_file() else {})


def recorded(files, record):
    """The record of these files, which names itself too."""
    sums = {name: base64.urlsafe_b64encode(hashlib.sha256(data).digest()).rstrip(b"=").decode() for name, data in files.items()}
    rows = [f"{name},sha256={sums[name]},{len(data)}\n" for name, data in files.items()]
    return "".join([*rows, f"{record},,\n"]).encode()


def write_wheel(folder, contents):
    """Writes the wheel with these contents beside what describes it, and gives its file's name."""
    told = project()
    name = f"{PACKAGE}-{told['version']}"
    files = {**contents, **{f"{name}.dist-info/{it}": data for it, data in described(told).items()}}
    record = f"{name}.dist-info/RECORD"
    files[record] = recorded(files, record)
    with zipfile.ZipFile(Path(folder, f"{name}-{TAG}.whl"), "w", zipfile.ZIP_DEFLATED) as archive:
        for path, data in files.items():
            entry = zipfile.ZipInfo(path, MOMENT)
            entry.external_attr, entry.compress_type = MODE << 16, zipfile.ZIP_DEFLATED
            archive.writestr(entry, data)
    return f"{name}-{TAG}.whl"


def build_wheel(wheel_directory, config_settings=None, metadata_directory=None):
    """Writes the wheel into a folder, as `pip install` asks for it, and gives its file's name."""
    return write_wheel(wheel_directory, sources())


def build_editable(wheel_directory, config_settings=None, metadata_directory=None):
    """Writes a wheel that has the package imported from here, as `pip install -e` asks for it."""
    return write_wheel(wheel_directory, {f"{PACKAGE}.pth": f"{HERE}\n".encode()})
