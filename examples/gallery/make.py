#!/usr/bin/env python3
"""make.py FOLDER: writes the netlists of the gallery."""
import sys

from designs import DESIGNS

if __name__ == "__main__":
    for name, design in DESIGNS.items():
        with open(f"{sys.argv[1]}/{name}.breeze", "w", encoding="utf-8") as file:
            file.write(design.text())
