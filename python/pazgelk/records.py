"""Records: the bytes that the engine is given, made of trees (docs/ANSWERS.md)."""

from __future__ import annotations

from collections.abc import Iterable
from dataclasses import dataclass

MOST_BONDS = 64
MOST_TREES = 8


@dataclass(frozen=True, order=True)
class Tree:
    """One connected part without rings: element and class of each atom, and each bond as its lower end, its higher end and its code.

    Atoms are numbered from 0, in the order in which they stand here.
    """

    atoms: tuple[tuple[int, int], ...]
    bonds: tuple[tuple[int, int, int], ...]


def rank(tree: Tree) -> tuple[int, Tree]:
    """By this trees are ordered in a record, whatever the order in which they are given: those of most bonds come first."""
    return -len(tree.bonds), tree


def record_of(trees: Iterable[Tree]) -> bytes:
    """The record of trees. Atoms and bonds are numbered tree by tree."""
    atoms: list[tuple[int, int]] = []
    bonds: list[tuple[int, int, int]] = []
    for tree in sorted(trees, key=rank):
        bonds += [(len(atoms) + low, len(atoms) + high, code) for low, high, code in tree.bonds]
        atoms += tree.atoms
    return bytes(
        [len(atoms), len(bonds)]
        + [element for element, _ in atoms]
        + [kind for _, kind in atoms]
        + [end for low, high, _ in bonds for end in (low, high)]
        + [code for _, _, code in bonds]
    )
