"""Builds the wheel, using only Python: the package, and the shared library that embed/build has made.

embed/build calls it. So does `pip install embed/python`, because pyproject.toml names it; then pip needs no network.
"""

from __future__ import annotations

import base64
import hashlib
import re
import sysconfig
import tomllib
import zipfile
from pathlib import Path

HERE = Path(__file__).resolve().parent
OUT = HERE.parent / "out"
LIBRARY = "librevroute.so"
# The tag manylinux2014 promises that the library runs with glibc 2.17.
MANYLINUX2014 = 17
EARLIEST = (1980, 1, 1, 0, 0, 0)


class UnsupportedOperation(Exception):
    """There is no source distribution, because Python does not build the library."""


def metadata(project: dict) -> str:
    fields = [("Metadata-Version", "2.1"), ("Name", project["name"]), ("Version", project["version"])]
    fields += [("Summary", project["description"]), ("Requires-Python", project["requires-python"])]
    fields += [("Classifier", it) for it in project["classifiers"]]
    return "".join(f"{name}: {value}\n" for name, value in fields)


def needed_glibc(library: bytes) -> int:
    """The minor version of the earliest C library that has all symbols of this shared library: 14 for glibc 2.14. The names of the symbol versions are
    plain text in the file, so no tool is needed to find them. 0 if there are none."""
    return max((int(it) for it in re.findall(rb"\0GLIBC_2\.(\d+)[.\d]*(?=\0)", library)), default=0)


def wheel_tag(library: bytes) -> str:
    """The tag of the wheel. The package is for any Python 3. The library is for one processor, and for systems whose C library is recent enough."""
    processor = sysconfig.get_platform().removeprefix("linux-").replace("-", "_")
    glibc = needed_glibc(library)
    return f"py3-none-manylinux2014_{processor}" if glibc <= MANYLINUX2014 else f"py3-none-manylinux_2_{glibc}_{processor}"


def build_wheel(wheel_directory, config_settings=None, metadata_directory=None) -> str:
    """Writes the wheel into the folder, and returns its name."""
    if not (OUT / LIBRARY).is_file():
        raise FileNotFoundError(f"{OUT / LIBRARY} is not there: run embed/build")
    return wheel_of(OUT / LIBRARY, Path(wheel_directory))


def wheel_of(library: Path, folder: Path) -> str:
    """Writes the wheel with this library into the folder, and returns its name. The same files make the same bytes."""
    project = tomllib.loads((HERE / "pyproject.toml").read_text())["project"]
    whole = f"{project['name']}-{project['version']}"
    info, tag = f"{whole}.dist-info", wheel_tag(library.read_bytes())
    files = {f"revroute/{it.name}": it.read_bytes() for it in sorted((HERE / "src" / "revroute").iterdir()) if it.is_file()}
    files[f"revroute/{LIBRARY}"] = library.read_bytes()
    files[f"{info}/METADATA"] = metadata(project).encode()
    files[f"{info}/WHEEL"] = f"Wheel-Version: 1.0\nGenerator: embed/build\nRoot-Is-Purelib: false\nTag: {tag}\n".encode()
    files[f"{info}/RECORD"] = record(files, f"{info}/RECORD")
    name = f"{whole}-{tag}.whl"
    with zipfile.ZipFile(folder / name, "w", zipfile.ZIP_DEFLATED) as wheel:
        for path, text in files.items():
            entry = zipfile.ZipInfo(path, EARLIEST)
            entry.external_attr = 0o100644 << 16
            wheel.writestr(entry, text, zipfile.ZIP_DEFLATED)
    return name


def record(files: dict[str, bytes], own: str) -> bytes:
    """The list of the files, with their hashes and lengths. It also names itself."""
    lines = []
    for path, text in files.items():
        sum = base64.urlsafe_b64encode(hashlib.sha256(text).digest()).rstrip(b"=").decode()
        lines.append(f"{path},sha256={sum},{len(text)}\n")
    return "".join([*lines, f"{own},,\n"]).encode()


def build_sdist(sdist_directory, config_settings=None) -> str:
    raise UnsupportedOperation(build_sdist.__doc__ or UnsupportedOperation.__doc__)
