"""All tests of Python but those of the examples. None runs rvstm, so they read nothing that the caller set for it."""

import os
import sys
import tempfile
from pathlib import Path

TOP = Path(__file__).resolve().parents[2]
sys.path += [str(TOP / "tools"), str(TOP / "docs")]
os.environ.pop("RVSTM", None)

IN_MEMORY = "/dev/shm"
"""A folder in memory: tests make and remove thousands of small files, which takes seconds on a disk that others use, too."""
if "TMPDIR" not in os.environ and os.access(IN_MEMORY, os.W_OK) and not os.statvfs(IN_MEMORY).f_flag & os.ST_NOEXEC:
    tempfile.tempdir = os.environ["TMPDIR"] = IN_MEMORY
