#!/usr/bin/env python3
"""Before port.py: respells the local name `given` of three walks, on which a script of the kit recurses without end.

usage: python3 tools/before_port.py [FOLDER]      at the top of the repository (or of a checkout of the commit to be ported)
"""
import re
import sys
from pathlib import Path

FILES = [
    "crates/comparison/proofs/compare/Proof.antt",
    "crates/planner_laws/proofs/next_of_two/Proof.antt",
    "crates/planner_laws/proofs/first_shown/Proof.antt",
]

top = Path(sys.argv[1] if len(sys.argv) > 1 else ".")
for name in FILES:
    path = top / name
    text = path.read_text(encoding="utf-8")
    path.write_text(re.sub(r"(?<![\w'′·.-])given(?![\w'′·-])", "asked-here", text), encoding="utf-8")
