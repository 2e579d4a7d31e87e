"""Records are made of trees, in one order."""

from __future__ import annotations

from itertools import permutations

from pazgelk.records import Tree, record_of

CHAIN = Tree(((6, 1), (6, 13), (8, 1)), ((0, 1, 1), (1, 2, 2)))
BOND = Tree(((7, 1), (7, 1)), ((0, 1, 3),))
WATER = Tree(((8, 1),), ())
ARGON = Tree(((18, 1),), ())


def test_one_tree() -> None:
    assert record_of([CHAIN]).hex(" ") == "03 02 06 06 08 01 0d 01 00 01 01 02 01 02"
    assert record_of([ARGON]).hex(" ") == "01 00 12 01"


def test_several_trees() -> None:
    """Bonds are numbered tree by tree, and so are the atoms that they join; those without bonds come last."""
    written = "07 03 06 06 08 07 07 08 12 01 0d 01 01 01 01 01 00 01 01 02 03 04 01 02 03"
    for trees in permutations([CHAIN, BOND, WATER, ARGON]):
        assert record_of(trees).hex(" ") == written


def test_equal_trees_stay() -> None:
    assert record_of([BOND, BOND]).hex(" ") == "04 02 07 07 07 07 01 01 01 01 00 01 02 03 03 03"
