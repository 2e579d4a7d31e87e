"""Compounds that several tests use."""

from __future__ import annotations

import csv
from pathlib import Path

ROAST = Path(__file__).resolve().parents[2] / "samples" / "roast.csv"

_BRANCH = "C(C(C)(C)C)(C(C)(C)C)C(C)(C)C"
# 52 bonds, far more matches than a search can go through in a minute
ENDLESS = f"C({_BRANCH})({_BRANCH})({_BRANCH}){_BRANCH}"
# 48 bonds: needs more than a million states
MANY_STATES = "CC(C)(C)" * 12 + "C"
PEPTIDE = "NC(C)C(=O)NC(CC(C)C)C(=O)NCC(=O)NC(CO)C(=O)NC(C)C(=O)NC(CC(C)C)C(=O)O"


def roast() -> list[tuple[str, str]]:
    """Name and SMILES of each compound of the sample list."""
    with ROAST.open(newline="", encoding="utf-8") as file:
        return [(row["name"], row["smiles"]) for row in csv.DictReader(file)]
