#!/usr/bin/env python3
"""Brings the links of docs/ to where the proof of a function stands now: its folder in proofs/, or, where the check finds the proof by
itself and there is no folder, the file of its code. Links that lead nowhere else are printed.

usage: tools/links.py
"""

import os
import re
import sys

DOCS = os.path.join(os.path.dirname(os.path.dirname(os.path.abspath(__file__))), "docs")
PROOF = re.compile(r"((?:\.\./)+crates/\w+)/proofs/([\w/]+?)(?:/Proof\.antt)?$")


def moved(folder, target):
    """Where a link of a document in this folder is to lead; none where nothing stands there."""
    there = lambda path: os.path.exists(os.path.join(folder, path))
    proof = PROOF.match(target)
    if not proof:
        return target if there(target) else None
    crate, path = proof.groups()
    if there(f"{crate}/proofs/{path}"):
        return f"{crate}/proofs/{path}"
    parts = path.split("/")
    for count in range(len(parts), -1, -1):
        code = f"{crate}/src/{'/'.join(parts[:count]) or 'lib'}.rt"
        if there(code):
            with open(os.path.join(folder, code), encoding="utf-8") as f:
                named = count == len(parts) or re.search(rf"\bfn {parts[-1]}\b", f.read())
            return code if named else None
    return None


def main():
    lost = False
    for folder, _, files in os.walk(DOCS):
        for name in sorted(it for it in files if it.endswith(".md")):
            path = os.path.join(folder, name)
            with open(path, encoding="utf-8") as f:
                old = f.read()

            def link(found):
                nonlocal lost
                target, _, place = found[1].partition("#")
                if "://" in target or not target:
                    return found[0]
                to = moved(folder, target)
                if to is None:
                    lost = True
                    print(f"{path}: {target}")
                    return found[0]
                return f"]({to}{'#' + place if place else ''})"

            new = re.sub(r"\]\(([^)\s]+)\)", link, old)
            if new != old:
                with open(path, "w", encoding="utf-8") as f:
                    f.write(new)
    return lost


if __name__ == "__main__":
    sys.exit(main())
