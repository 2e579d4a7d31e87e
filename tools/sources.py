"""What tools/seams and tools/closure read off the sources: crates, modules, and what a file brings in by its use lines.

A module of crate C is named Rattle.C.specs.M or Rattle.C.proofs.M, inside C too; it is the file crates/C/specs/M.antt or
crates/C/proofs/M.antt. Modules below specs.declared are the types that the code declares.
"""
import functools
import pathlib
import re
from typing import Iterator, NamedTuple, Optional

ROOT = pathlib.Path(__file__).resolve().parent.parent
CRATES = ROOT / "crates"
# The folders of a crate that hold sources; a check writes copies of them into its out/.
PARTS = ("src", "specs", "proofs")

MODULE = re.compile(r"Rattle\.(\w+)(?:\.(.+))?")
USE = re.compile(
    r"^[ \t]*(?:unfoldable\s+)?(?P<public>pub\s+)?(?:ghost\s+)?use\s+(?P<path>[^\s{};]+?)(?:\.\{(?P<items>[^}]*)\}|\s+as\s+(?P<known>[^\s;]+))?[ \t]*;?[ \t]*$",
    re.MULTILINE,
)


class Module(NamedTuple):
    """A module of a crate of this repository: its place is a path such as ('specs', 'Check')."""

    crate: str
    place: tuple[str, ...]

    @property
    def declared(self) -> bool:
        """Whether it holds a type that the code declares."""
        return self.place[:2] == ("specs", "declared")

    @property
    def file(self) -> pathlib.Path:
        """The file that holds it."""
        return CRATES.joinpath(self.crate, *self.place).with_suffix(".antt")


class Use(NamedTuple):
    """What one item of a use line brings: a module (name is None) or a name of it, known by another name, perhaps."""

    path: str
    name: Optional[str]
    known: str
    public: bool
    line: int


def module_of(path: str) -> Optional[Module]:
    """The module that a path names, or None for one of no crate of this repository."""
    found = MODULE.fullmatch(path)
    if found is None or not (CRATES / found[1]).is_dir():
        return None
    return Module(found[1], tuple(found[2].split(".")) if found[2] else ())


def blanked(text: str, comment: str) -> str:
    """The text with its comments blanked, so that places in it stay: comment is what a comment to the line's end begins with."""

    def blank(found: re.Match[str]) -> str:
        return found[0] if found[0].startswith('"') else re.sub(r"[^\n]", " ", found[0])

    rest = r"\{-.*?-\}|(?<!\S)--[^\n]*" if comment == "--" else rf"/\*.*?\*/|{comment}[^\n]*"
    return re.sub(rf'"(?:\\.|[^"\\\n])*"|{rest}', blank, text, flags=re.DOTALL)


@functools.lru_cache(maxsize=None)
def read(path: pathlib.Path) -> str:
    """The text of a source file without its comments."""
    return blanked(path.read_text(encoding="utf-8"), "--" if path.suffix == ".antt" else "//")


@functools.lru_cache(maxsize=None)
def uses(path: pathlib.Path) -> tuple[Use, ...]:
    """What the use lines of a file bring in, their paths written out where they begin with a name of another such line."""
    listed: list[Use] = []
    modules: dict[str, str] = {}
    text = read(path)
    for found in USE.finditer(text):
        first, dot, rest = found["path"].partition(".")
        whole = modules.get(first, first) + dot + rest
        for use in items(found, whole, text.count("\n", 0, found.start("path")) + 1):
            listed.append(use)
            if use.name is None:
                modules[use.known] = use.path
    return tuple(listed)


def items(found: re.Match[str], path: str, line: int) -> Iterator[Use]:
    """The items of one use line."""
    public = found["public"] is not None
    if found["items"] is None:
        yield Use(path, None, found["known"] or path.rpartition(".")[2], public, line)
        return
    for item in filter(None, (item.strip() for item in found["items"].split(","))):
        place, _, known = item.partition(" as ")
        below, _, name = place.strip().rpartition(".")
        yield Use(f"{path}.{below}" if below else path, name, known.strip() or name, public, line)


def origin(path: str, name: str) -> tuple[str, str]:
    """Where a name of a module comes from: the module itself, or the one that its pub use lines bring it from."""
    module = module_of(path)
    if module is not None and module.file.is_file():
        for use in uses(module.file):
            if use.public and use.name is not None and use.known == name:
                return origin(use.path, use.name)
    return path, name
