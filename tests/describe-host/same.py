"""Compares two machine files, but for what they are about: `same.py EXPECTED FOUND`. No CPU is offline."""

import json
import sys

expected, found = (json.load(open(path)) for path in sys.argv[1:])
expected.pop("about")
if found != {**expected, "offline": ""}:
    sys.exit(f"{sys.argv[1]}: expected {expected}, found {found}")
