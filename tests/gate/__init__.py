"""What users run, as cases: over a program that is there, without root, without the network and without a proof."""

import sys
from pathlib import Path

sys.path += [str(Path(__file__).resolve().parents[2] / folder) for folder in ("tools", "examples/embed")]
