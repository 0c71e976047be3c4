"""Builds the wheel of this folder: its sources and what pyproject.toml says of them. It needs no network and no other package."""
import base64
import hashlib
import os
import re
import tarfile
import zipfile
from typing import Any, Dict, List, Optional

HERE = os.path.dirname(os.path.dirname(os.path.abspath(__file__)))
PACKAGE = "tareslater"
ENDS = (".py", "py.typed", ".html", ".css", ".js")
WHEEL = "Wheel-Version: 1.0\nGenerator: wheel_of_sources\nRoot-Is-Purelib: true\nTag: py3-none-any\n"
Settings = Optional[Dict[str, Any]]


def said(key: str) -> str:
    """What pyproject.toml says of the project; Python 3.9 has no reader of it."""
    with open(os.path.join(HERE, "pyproject.toml")) as file:
        found = re.search(r'(?m)^%s = (?:\{ text = )?"([^"]*)"' % key, file.read())
    assert found, key
    return found[1]


def name() -> str:
    return "%s-%s" % (PACKAGE, said("version"))


def metadata() -> str:
    fields = [("Metadata-Version", "2.1"), ("Name", PACKAGE), ("Version", said("version")), ("Summary", said("description"))]
    fields += [("License", said("license")), ("Requires-Python", said("requires-python"))]
    return "".join("%s: %s\n" % field for field in fields)


def sources() -> List[str]:
    """The files of the package, by their paths below this folder."""
    found = []
    for folder, _, names in os.walk(os.path.join(HERE, PACKAGE)):
        found += [os.path.relpath(os.path.join(folder, name), HERE) for name in names if name.endswith(ENDS)]
    return sorted(path.replace(os.sep, "/") for path in found)


def write(folder: str, files: Dict[str, bytes]) -> str:
    """A wheel of these files, with the record of them."""
    record = "%s.dist-info/RECORD" % name()
    files["%s.dist-info/METADATA" % name()] = metadata().encode()
    files["%s.dist-info/WHEEL" % name()] = WHEEL.encode()
    lines = []
    for path, content in files.items():
        digest = base64.urlsafe_b64encode(hashlib.sha256(content).digest()).decode().rstrip("=")
        lines.append("%s,sha256=%s,%d\n" % (path, digest, len(content)))
    files[record] = "".join(lines + [record + ",,\n"]).encode()
    made = "%s-py3-none-any.whl" % name()
    with zipfile.ZipFile(os.path.join(folder, made), "w", zipfile.ZIP_DEFLATED) as wheel:
        for path, content in files.items():
            wheel.writestr(path, content)
    return made


def content(path: str) -> bytes:
    with open(os.path.join(HERE, path), "rb") as file:
        return file.read()


def build_wheel(wheel_directory: str, config_settings: Settings = None, metadata_directory: Optional[str] = None) -> str:
    return write(wheel_directory, {path: content(path) for path in sources()})


def build_editable(wheel_directory: str, config_settings: Settings = None, metadata_directory: Optional[str] = None) -> str:
    return write(wheel_directory, {"%s.pth" % PACKAGE: HERE.encode() + b"\n"})


def build_sdist(sdist_directory: str, config_settings: Settings = None) -> str:
    made = name() + ".tar.gz"
    with tarfile.open(os.path.join(sdist_directory, made), "w:gz") as archive:
        for path in ["pyproject.toml", "backend/wheel_of_sources.py", *sources()]:
            archive.add(os.path.join(HERE, path), "%s/%s" % (name(), path))
    return made
