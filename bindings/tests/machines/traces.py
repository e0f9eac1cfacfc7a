"""What `wcptrace` says of a log. The variable WCPTRACE names another program than the one that the gate has built."""

from __future__ import annotations

import os
import re
import subprocess
from typing import Sequence

from server import SECONDS, TOP

WCPTRACE = os.environ.get("WCPTRACE", str(TOP / "crates" / "wcptrace" / "out" / "wcptrace"))


def traced(text: str, words: Sequence[str]) -> tuple[int, ...] | None:
    """The lines of the moment of this log and these conditions, or None."""
    ran = subprocess.run([WCPTRACE, "--form", "lines", *words], input=text, capture_output=True, text=True, check=False,
                         timeout=SECONDS)
    if ran.returncode not in (0, 1):
        raise RuntimeError(f"wcptrace {words}: {ran.stderr}")
    lines = re.findall(r"^\S+ line (\d+) ", ran.stdout, re.M)
    return tuple(map(int, lines)) if ran.returncode == 0 else None
