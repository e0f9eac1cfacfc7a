"""The profiles of Hypothesis, and what all properties need.

`/usr/bin/python3 -m pytest bindings/tests/properties` tries the same examples each time. With `--hypothesis-profile
thorough` it tries a hundred times as many, other ones each time, and prints what makes a failure happen again.
"""

import pathlib
import sys
from typing import Any

from hypothesis import HealthCheck, settings

sys.path.insert(0, str(pathlib.Path(__file__).resolve().parents[2] / "python"))

from . import model_server  # noqa: E402

# How many examples a property has; those of the machines are long, and each test says how many of these it tries.
EXAMPLES = 100
# Neither the load of the machine nor the size of an example decides a test.
COMMON: Any = {"deadline": None, "print_blob": True, "stateful_step_count": 30,
               "suppress_health_check": list(HealthCheck)}
settings.register_profile("gate", derandomize=True, database=None, max_examples=EXAMPLES, **COMMON)
settings.register_profile("thorough", max_examples=100 * EXAMPLES, **COMMON)


def pytest_configure(config: Any) -> None:
    """Takes the profile of the command line, or that of the gate."""
    settings.load_profile(config.getoption("--hypothesis-profile") or "gate")
    model_server.install()
