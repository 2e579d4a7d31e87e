"""tools/seams: what crates open of each other, in proofs and in the tactics above functions."""
import pathlib
import shutil
import subprocess

import pytest

ROOT = pathlib.Path(__file__).resolve().parents[2]
PARTS = ("src", "specs", "proofs")


@pytest.fixture
def sources(tmp_path: pathlib.Path) -> pathlib.Path:
    """A copy of the sources that tools/seams reads."""
    shutil.copytree(ROOT / "tools", tmp_path / "tools")
    for crate in sorted((ROOT / "crates").iterdir()):
        for part in PARTS:
            if (crate / part).is_dir():
                shutil.copytree(crate / part, tmp_path / "crates" / crate.name / part)
    return tmp_path


def seams(root: pathlib.Path) -> subprocess.CompletedProcess:
    """What tools/seams says of the sources."""
    return subprocess.run([root / "tools" / "seams"], capture_output=True, text=True, check=False)


def above(root: pathlib.Path, line: str, before: str = "pub fn equal_labels(") -> None:
    """Puts a line above one of desk that begins so."""
    file = root / "crates" / "desk" / "src" / "lib.rt"
    text = file.read_text(encoding="utf-8")
    assert text.count(before) == 1
    place = text.index(before)
    file.write_text(f"{text[:place]}{line}\n{text[place:]}", encoding="utf-8")


def test_the_sources_keep_to_it(sources: pathlib.Path) -> None:
    assert seams(sources).returncode == 0


@pytest.mark.parametrize(
    "attribute",
    [
        "#[tactic(auto, unfolding(canonize::specs::Label::label))]",
        "#[tactic(\n    auto, // a ]\n    unfolding (canonize :: specs::Label::label),\n)]",
        "# ! [ tactic (auto, unfolding(canonize::specs::Label::label)) ]",
        "ghost use Rattle.canonize.specs.Label.{label};\nghost law = { unfold label in refl };",
    ],
)
def test_a_definition_opened_in_the_code(sources: pathlib.Path, attribute: str) -> None:
    above(sources, attribute)
    said = seams(sources)
    assert said.returncode == 1
    assert "desk opens label of canonize" in said.stderr


def test_a_law_cited_above_a_function_that_is_not_of_laws(sources: pathlib.Path) -> None:
    above(sources, "#[tactic(auto, using(canonize::proofs::Slots::slots_blank))]")
    said = seams(sources)
    assert said.returncode == 1
    assert "desk brings in proofs.Slots.slots_blank of canonize, not its Laws" in said.stderr


def test_what_is_of_the_crate_itself(sources: pathlib.Path) -> None:
    above(sources, "#[tactic(auto, using(crate::proofs::Caching::cached_kept))]")
    assert seams(sources).returncode == 0
