"""The tests of the broker, by Python's own unittest: README.md beside this file says what each folder shows.

`make test K=NAME` runs the cases that have NAME in their names.
"""

import os
import sys
from pathlib import Path

ROOT = Path(__file__).resolve().parent.parent
for folder in ("tools", "python"):
    sys.path.insert(0, str(ROOT / folder))
# The program that the package's brokers run.
os.environ.setdefault("KBROKER", str(ROOT / "crates/kbroker/out/kbroker"))
