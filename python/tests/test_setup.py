"""The set-up of a fresh machine, with a toolchain and a package manager that only pretend."""

from __future__ import annotations

import os
import pty
import re
import shutil
import signal
import subprocess
import sys
import time
from pathlib import Path

import pytest

TOP = Path(__file__).resolve().parents[2]
ARCHIVE = TOP / "target" / "staticlib" / "libcapi.a"

RT = """#!/bin/bash
top=$(cd "$(dirname "$0")/.." && pwd)
crate=${PWD##*/}
case $1 in
version) cat "$top/bin/version" ;;
lib | run)
    echo $$ >"$top/pid"
    [ ! -e "$top/slow" ] || sleep 0.7
    [ ! -e "$top/broken" ] || { echo "rt: $crate NOT PROVED"; exit 1; }
    mkdir -p out
    case $crate in
    capi_c) cp ARCHIVE out/libcapi_c.a ;;
    lines)
        [ "$1" = run ] || exit 2
        printf '#!/bin/sh\\nexec cat\\n' >out/lines
        chmod +x out/lines
        echo run >>"$top/runs"
        ;;
    esac
    ;;
*) exit 2 ;;
esac
"""


def tool(path: Path, text: str) -> None:
    """Makes a command."""
    path.write_text(text)
    path.chmod(0o755)


@pytest.fixture
def repository(tmp_path: Path) -> Path:
    """A small repository with the real launcher and tools."""
    top = tmp_path / "repository"
    for name in ("tools", "python", "bin"):
        (top / name).mkdir(parents=True)
    for name in ("pazgelk", "tools/build", "tools/packages"):
        shutil.copy2(TOP / name, top / name)
    (top / "python" / "pazgelk").symlink_to(TOP / "python" / "pazgelk")
    (top / "crates.txt").write_text("bitset:\nmolecule: bitset\nother: bitset\nlines: molecule itoa\ncapi_c staticlib: molecule\n")
    for crate in ("bitset", "molecule", "other", "lines", "capi_c"):
        (top / "crates" / crate / "src").mkdir(parents=True)
        (top / "crates" / crate / "src" / ("main.rt" if crate == "lines" else "lib.rt")).write_text(crate)
    (top / "bin" / "version").write_text("pretended 1\n")
    tool(top / "bin" / "rt", RT.replace("ARCHIVE", str(ARCHIVE)))
    return top


def environment(repository: Path, path: str | None = None) -> dict[str, str]:
    """An environment in which the pretended tools come first."""
    kept = {name: value for name, value in os.environ.items() if not name.startswith(("PAZGELK", "PYTHONPATH"))}
    return {**kept, "PATH": path or f"{repository / 'bin'}:/usr/bin:/bin", "TERM": "xterm", "PAZGELK_LIBRARY": str(TOP / "target" / "libpazgelk.so")}


def run(repository: Path, *words: str, path: str | None = None, given: str = "") -> subprocess.CompletedProcess[str]:
    """Runs a command of the repository."""
    command = [str(repository / words[0]), *words[1:]]
    return subprocess.run(command, input=given, capture_output=True, text=True, env=environment(repository, path), check=False)


def runs(repository: Path) -> int:
    """How often all was proved."""
    counter = repository / "runs"
    return len(counter.read_text().split()) if counter.exists() else 0


needs_archive = pytest.mark.skipif(not ARCHIVE.exists(), reason="the archive is not built")


@needs_archive
def test_first_run_shows_each_crate(repository: Path) -> None:
    (repository / "slow").touch()
    first = run(repository, "tools/build")
    assert first.returncode == 0 and first.stdout == ""
    for number, crate in enumerate(("bitset", "molecule", "lines", "capi_c"), 1):
        assert re.search(rf"crate {number} of 4 \({crate}\), 0:0\d\n", first.stderr), first.stderr
    assert (repository / "target" / "libpazgelk.so").exists()
    assert run(repository, "tools/build").stderr == "" and runs(repository) == 1


@needs_archive
def test_it_is_built_again_where_something_has_changed(repository: Path) -> None:
    run(repository, "tools/build")
    (repository / "crates" / "molecule" / "src" / "lib.rt").write_text("changed")
    run(repository, "tools/build")
    assert runs(repository) == 2
    (repository / "bin" / "version").write_text("pretended 2\n")
    run(repository, "tools/build")
    assert runs(repository) == 3
    (repository / "bin" / "rt").unlink()
    assert run(repository, "tools/build").returncode == 0


@needs_archive
def test_on_a_terminal_it_is_one_line(repository: Path) -> None:
    (repository / "slow").touch()
    child, terminal = pty.fork()
    if child == 0:
        os.execve(str(repository / "tools" / "build"), ["build"], environment(repository))
    shown = b""
    while True:
        try:
            shown += os.read(terminal, 65536)
        except OSError:
            break
    assert os.waitstatus_to_exitcode(os.waitpid(child, 0)[1]) == 0
    assert b"\r\x1b[Kpazgelk: proving the engine, once: crate 2 of 4 (molecule), 0:0" in shown
    assert shown.count(b"\n") == 2


def test_stopped_by_the_user(repository: Path) -> None:
    (repository / "slow").touch()
    command = [str(repository / "pazgelk"), "score", "--smiles", "CC"]
    with subprocess.Popen(command, stderr=subprocess.PIPE, text=True, env=environment(repository), start_new_session=True) as program:
        assert program.stderr is not None
        program.stderr.readline()
        while not (repository / "pid").exists():
            time.sleep(0.01)
        os.killpg(program.pid, signal.SIGINT)
        _, error = program.communicate(timeout=10)
    assert program.returncode == 130 and "Traceback" not in error and "stopped" in error
    time.sleep(0.3)
    state = Path("/proc", (repository / "pid").read_text().strip(), "stat")
    assert not state.exists() or state.read_text().split(")")[1].split()[0] == "Z"


def test_what_is_not_proved_is_not_run(repository: Path) -> None:
    (repository / "broken").touch()
    told = run(repository, "pazgelk", "score", "--smiles", "CC")
    assert (told.returncode, told.stdout) == (1, "") and "bitset NOT PROVED" in told.stderr


def test_without_a_toolchain(repository: Path) -> None:
    (repository / "bin" / "rt").unlink()
    told = run(repository, "pazgelk", "score", "--smiles", "CC")
    assert told.returncode == 2 and "rt is not on the path" in told.stderr and "Traceback" not in told.stderr


def test_nothing_is_built_for_a_slip(repository: Path) -> None:
    for words in (["--help"], ["--version"], ["scores"], ["score", "none.csv"]):
        assert run(repository, "pazgelk", *words).returncode == (0 if words[0].startswith("--") else 2)
    assert runs(repository) == 0


@needs_archive
def test_questions(repository: Path) -> None:
    (repository / "questions").write_text("check 0000\n")
    told = run(repository, "pazgelk", "ask", str(repository / "questions"), "-", given="check 01\n")
    assert (told.returncode, told.stdout) == (0, "check 0000\ncheck 01\n")
    assert run(repository, "pazgelk", "ask", given="a\nb\n").stdout == "a\nb\n"
    tool(repository / "target" / "bin" / "lines", "#!/bin/sh\nkill -9 $$\n")
    assert run(repository, "pazgelk", "ask", given="a\n").returncode == 1


# Packages


def packages(repository: Path, user: int, works: bool = True) -> subprocess.CompletedProcess[str]:
    """Asks for a package that is there and two that are not."""
    tool(repository / "bin" / "dpkg-query", '#!/bin/sh\ncase $* in *python3-there) printf installed ;; *) exit 1 ;; esac\n')
    tool(repository / "bin" / "apt-get", f'#!/bin/sh\necho "$*" >>{repository}/apt\n{"true" if works else "echo no network; false"}\n')
    tool(repository / "bin" / "id", f"#!/bin/sh\necho {user}\n")
    return run(repository, "tools/packages", "python3-there", "python3-rdkit", "gcc")


def test_packages_are_installed(repository: Path) -> None:
    told = packages(repository, user=0)
    assert (told.returncode, told.stderr) == (0, "pazgelk: installing python3-rdkit gcc, once\n")
    assert "install -y -qq --no-install-recommends python3-rdkit gcc" in (repository / "apt").read_text()


def test_packages_of_another_user(repository: Path) -> None:
    told = packages(repository, user=1000)
    assert told.returncode == 2 and "sudo apt-get install -y python3-rdkit gcc" in told.stderr and not (repository / "apt").exists()


def test_packages_that_do_not_come(repository: Path) -> None:
    told = packages(repository, user=0, works=False)
    assert told.returncode == 2 and "no network" in told.stderr and "could not be installed" in told.stderr


def test_other_python_on_the_path_is_not_used(repository: Path) -> None:
    for name in ("python3", "python"):
        tool(repository / "bin" / name, "#!/bin/sh\nexit 3\n")
    assert run(repository, "pazgelk", "--version").returncode == 0
    assert sys.version_info >= (3, 11)
