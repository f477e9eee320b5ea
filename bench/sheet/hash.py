#!/usr/bin/env python3
"""Puts the SHA-256 of each style into the policy of HEAD: that of a sheet in crates/sheets/src/templates.rt, and that of
a sheet and of plays in crates/play_sheets/src/templates.rt.

Usage: bench/sheet/hash.py [--check], which changes nothing, and ends with 1 if a HEAD has another hash.
"""
import base64
import hashlib
import re
import sys
from pathlib import Path

CRATES = Path(__file__).resolve().parents[2] / "crates"
# By crate the crates whose styles a page has, in order.
STYLES = {"sheets": ["sheets"], "play_sheets": ["sheets", "play_sheets"]}


def templates(crate):
    return CRATES / crate / "src/templates.rt"


def hash_of(crate):
    text = templates(crate).read_text()
    (style,) = re.findall(r'^pub const STYLE: &\[u8\] = br#"(.*?)"#;$', text, re.M | re.S)
    return base64.b64encode(hashlib.sha256(style.encode()).digest()).decode()


def main():
    for crate, styles in STYLES.items():
        text = templates(crate).read_text()
        wanted = "style-src " + "\n  ".join(f"'sha256-{hash_of(style)}'" for style in styles)
        hashed, count = re.subn(r"style-src '.*?'(?=;)", wanted, text, flags=re.S)
        if count != 1:
            sys.exit(f"hash: {crate} has {count} policies, not one")
        if hashed != text and "--check" in sys.argv:
            sys.exit(f"hash: HEAD of {crate} has other hashes than those of its styles: {wanted}")
        templates(crate).write_text(hashed)


main()
