"""The gate, which `make test` runs, and tests of it and of the first build.

The scripts in tools/, and those in tests/ that try edits, find one another as scripts of one folder do: so can what is here."""

import os
import sys

ROOT = os.path.dirname(os.path.dirname(os.path.dirname(os.path.abspath(__file__))))
sys.path[:0] = [os.path.join(ROOT, "tests"), os.path.join(ROOT, "tools")]
