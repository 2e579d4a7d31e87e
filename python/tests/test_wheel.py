"""The wheel, on a machine without the toolchain."""

from __future__ import annotations

import csv
import hashlib
import io
import os
import subprocess
import sys
import zipfile
from base64 import urlsafe_b64encode
from pathlib import Path

import pytest

TOP = Path(__file__).resolve().parents[2]
CLEAN = {"PATH": "/usr/bin:/bin", "LANG": "C.UTF-8", "HOME": "/nonexistent"}


@pytest.fixture(scope="module")
def wheel(tmp_path_factory: pytest.TempPathFactory) -> Path:
    folder = tmp_path_factory.mktemp("wheel")
    said = subprocess.run([TOP / "tools" / "wheel", folder], capture_output=True, text=True, check=True).stdout
    return Path(said.strip())


def test_what_is_inside(wheel: Path) -> None:
    assert wheel.name.endswith("-py3-none-linux_x86_64.whl")
    with zipfile.ZipFile(wheel) as inside:
        files = {name: inside.read(name) for name in inside.namelist()}
    assert "pazgelk/libpazgelk.so" in files and "pazgelk/tables/__init__.py" in files
    (info,) = {name.split("/")[0] for name in files if ".dist-info/" in name}
    metadata = files[f"{info}/METADATA"].decode()
    assert "Requires-Dist: rdkit; extra == 'rdkit'" in metadata and "\nVersion: " in metadata
    for name, digest, length in csv.reader(io.StringIO(files.pop(f"{info}/RECORD").decode())):
        if digest:
            content = files.pop(name)
            assert digest == "sha256=" + urlsafe_b64encode(hashlib.sha256(content).digest()).rstrip(b"=").decode()
            assert int(length) == len(content)
    assert not files


def test_clean_environment(wheel: Path, tmp_path: Path) -> None:
    """Installed into an environment with system packages, it scores with no rt on the path."""
    home = tmp_path / "environment"

    def run(*words: object, **more: object) -> subprocess.CompletedProcess[str]:
        return subprocess.run([str(word) for word in words], cwd=tmp_path, env=CLEAN, capture_output=True, text=True, **more)  # type: ignore[call-overload]

    assert run("which", "rt").returncode != 0
    run("/usr/bin/python3", "-m", "venv", "--system-site-packages", home, check=True)
    run(home / "bin" / "pip", "install", "--no-index", "--no-deps", "--disable-pip-version-check", wheel, check=True)
    where = run(home / "bin" / "python", "-c", "import pazgelk; print(pazgelk.__file__, pazgelk.score('CC(C)CC=O').score)", check=True)
    assert where.stdout.startswith(str(home)) and where.stdout.endswith(" 3\n")
    scored = run(home / "bin" / "pazgelk", "score", "--smiles", "CC(C)CC=O", "--smiles", "[Ar]")
    assert scored.returncode == 0 and "CC(C)CC=O,3,scored,5," in scored.stdout and "[Ar],0,scored,0," in scored.stdout


def test_without_rdkit_it_says_so(wheel: Path, tmp_path: Path) -> None:
    with zipfile.ZipFile(wheel) as inside:
        inside.extractall(tmp_path)
    environment = dict(CLEAN, PYTHONPATH=str(tmp_path), PYTHONSAFEPATH="1")
    ended = subprocess.run(
        [sys.executable, "-S", "-m", "pazgelk", "score", "--smiles", "CCO"], env=environment, capture_output=True, text=True, check=False
    )
    assert ended.returncode == 2 and "python3-rdkit" in ended.stderr and "Traceback" not in ended.stderr


def test_words_that_are_not_understood() -> None:
    ended = subprocess.run([TOP / "tools" / "wheel", "--help"], capture_output=True, text=True, check=False, env=dict(os.environ))
    assert ended.returncode == 2 and "usage" in ended.stderr
