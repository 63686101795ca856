"""Builds the package for pip (PEP 517), with nothing but the standard library, so that no index has to be asked.

The wheel takes the shared library along where there is one: in the folder that SIROPHAN_LIB_DIR names, or else in lib of the
release or in target/lib of the checkout that this folder stands in.
"""

import base64
import hashlib
import os
import re
import tarfile
import zipfile
from pathlib import Path

HERE = Path(__file__).resolve().parent
SONAME = "libsirophan.so.0"
# the first time that a zip file can hold, so that the same files give the same bytes
TIME = (1980, 1, 1, 0, 0, 0)


def _field(name):
    """A text of pyproject.toml, which Python 3.9 has no reader for."""
    return re.search(rf'^{name} = "(.*)"$', (HERE / "pyproject.toml").read_text(), re.MULTILINE).group(1)


def _library():
    named = os.environ.get("SIROPHAN_LIB_DIR")
    folders = [Path(named)] if named else [HERE.parent / "lib", HERE.parent / "target" / "lib"]
    for folder in folders:
        if (folder / SONAME).is_file():
            return folder / SONAME
    if named:
        raise FileNotFoundError(f"{SONAME} is not in SIROPHAN_LIB_DIR, {named}")
    return None


def _metadata():
    return (
        "Metadata-Version: 2.1\n"
        f"Name: {_field('name')}\nVersion: {_field('version')}\nSummary: {_field('description')}\n"
        f"License: MIT\nRequires-Python: {_field('requires-python')}\nDescription-Content-Type: text/markdown\n\n"
        + (HERE / "README.md").read_text(encoding="utf-8")
    )


def _files():
    """What the wheel holds, by name."""
    library = _library()
    tag = "py3-none-linux_x86_64" if library else "py3-none-any"
    info = f"sirophan-{_field('version')}.dist-info"
    files = {f"sirophan/{path.name}": path.read_bytes() for path in sorted((HERE / "sirophan").iterdir()) if path.is_file()}
    if library:
        files[f"sirophan/{SONAME}"] = library.read_bytes()
    files[f"{info}/METADATA"] = _metadata().encode()
    pure = "false" if library else "true"
    files[f"{info}/WHEEL"] = f"Wheel-Version: 1.0\nGenerator: sirophan\nRoot-Is-Purelib: {pure}\nTag: {tag}\n".encode()
    lines = []
    for name, data in files.items():
        digest = base64.urlsafe_b64encode(hashlib.sha256(data).digest()).rstrip(b"=").decode()
        lines.append(f"{name},sha256={digest},{len(data)}\n")
    files[f"{info}/RECORD"] = ("".join(lines) + f"{info}/RECORD,,\n").encode()
    return tag, files


def build_wheel(wheel_directory, config_settings=None, metadata_directory=None):
    tag, files = _files()
    name = f"sirophan-{_field('version')}-{tag}.whl"
    with zipfile.ZipFile(Path(wheel_directory) / name, "w", zipfile.ZIP_DEFLATED) as wheel:
        for path, data in files.items():
            wheel.writestr(zipfile.ZipInfo(path, TIME), data, zipfile.ZIP_DEFLATED)
    return name


def build_sdist(sdist_directory, config_settings=None):
    stem = f"sirophan-{_field('version')}"
    with tarfile.open(Path(sdist_directory) / f"{stem}.tar.gz", "w:gz", format=tarfile.PAX_FORMAT) as archive:
        for name in ("pyproject.toml", "README.md", "backend.py"):
            archive.add(HERE / name, f"{stem}/{name}")
        for path in sorted((HERE / "sirophan").iterdir()):
            if path.is_file():
                archive.add(path, f"{stem}/sirophan/{path.name}")
    return f"{stem}.tar.gz"
