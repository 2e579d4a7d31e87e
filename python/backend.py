"""Builds the wheel: the package, with the engine's shared library inside. It needs nothing but Python itself.

Build tools call build_wheel (PEP 517); tools/wheel does so after it has made sure of the engine.
"""

from __future__ import annotations

import base64
import hashlib
import re
import tomllib
import zipfile
from email.message import Message
from pathlib import Path

HERE = Path(__file__).resolve().parent
LIBRARY = HERE.parent / "target" / "libpazgelk.so"
LICENCES = ("LICENSE-MIT", "LICENSE-APACHE", "NOTICE")
TAG = "py3-none-linux_x86_64"
# Every file has this time, so that equal sources make equal wheels.
TIME = (1980, 1, 1, 0, 0, 0)


def build_wheel(wheel_directory: str, config_settings: object = None, metadata_directory: str | None = None) -> str:
    """Writes the wheel into the folder, and gives its name."""
    if not LIBRARY.is_file():
        raise FileNotFoundError(f"{LIBRARY} is not there: tools/wheel builds it and the wheel")
    project = tomllib.loads((HERE / "pyproject.toml").read_text())["project"]
    version = _version()
    info = f"{project['name']}-{version}.dist-info"
    files = _package() | _about(project, version, info)
    files[f"{info}/RECORD"] = _listed(files, f"{info}/RECORD")
    name = f"{project['name']}-{version}-{TAG}.whl"
    with zipfile.ZipFile(Path(wheel_directory) / name, "w", zipfile.ZIP_DEFLATED) as wheel:
        for path, content in files.items():
            entry = zipfile.ZipInfo(path, TIME)
            entry.external_attr = 0o644 << 16
            entry.compress_type = zipfile.ZIP_DEFLATED
            wheel.writestr(entry, content)
    return name


def build_sdist(sdist_directory: str, config_settings: object = None) -> str:
    """There is none: the engine is built from the whole repository."""
    raise NotImplementedError("only wheels are built: run tools/wheel in the repository")


def _version() -> str:
    """The package's version, which stands in the package."""
    found = re.search(r'^__version__ = "(.+)"$', (HERE / "pazgelk" / "__init__.py").read_text(), re.MULTILINE)
    assert found is not None
    return found[1]


def _package() -> dict[str, bytes]:
    """The modules, and the library beside them."""
    modules = sorted((HERE / "pazgelk").rglob("*.py"))
    files = {module.relative_to(HERE).as_posix(): module.read_bytes() for module in modules}
    return files | {f"pazgelk/{LIBRARY.name}": LIBRARY.read_bytes()}


def _about(project: dict, version: str, info: str) -> dict[str, bytes]:
    """What a wheel says of itself."""
    wheel = Message()
    for key, value in (("Wheel-Version", "1.0"), ("Generator", "pazgelk"), ("Root-Is-Purelib", "false"), ("Tag", TAG)):
        wheel[key] = value
    scripts = "".join(f"{name} = {target}\n" for name, target in project["scripts"].items())
    files = {
        f"{info}/METADATA": bytes(_metadata(project, version)),
        f"{info}/WHEEL": bytes(wheel),
        f"{info}/entry_points.txt": f"[console_scripts]\n{scripts}".encode(),
    }
    return files | {f"{info}/licenses/{name}": (HERE.parent / name).read_bytes() for name in LICENCES}


def _metadata(project: dict, version: str) -> Message:
    """The core metadata."""
    about = Message()
    about["Metadata-Version"] = "2.1"
    about["Name"] = project["name"]
    about["Version"] = version
    about["Summary"] = project["description"]
    about["License"] = project["license"]["text"]
    about["Keywords"] = ",".join(project["keywords"])
    about["Requires-Python"] = project["requires-python"]
    for classifier in project["classifiers"]:
        about["Classifier"] = classifier
    for extra, needs in project["optional-dependencies"].items():
        about["Provides-Extra"] = extra
        for need in needs:
            about["Requires-Dist"] = f"{need}; extra == '{extra}'"
    return about


def _listed(files: dict[str, bytes], own: str) -> bytes:
    """The list of all files with their hashes."""
    lines = []
    for path, content in files.items():
        digest = base64.urlsafe_b64encode(hashlib.sha256(content).digest()).rstrip(b"=").decode()
        lines.append(f"{path},sha256={digest},{len(content)}\n")
    return "".join([*lines, f"{own},,\n"]).encode()
