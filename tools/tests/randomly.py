"""Random cases by hypothesis (Debian: python3-hypothesis): a few seconds' share of them in each
test, always the same ones, or as many others as the variable CODENAV_CASES says."""

import os
import unittest
from typing import Any, Callable

CASES = "CODENAV_CASES"


def check_cases(
    test: unittest.TestCase,
    count: int,
    drawn: Callable[[Any], dict[str, Any]],
    check: Callable[..., None],
) -> None:
    """Calls a check with values that are drawn: `drawn` answers a strategy of
    `hypothesis.strategies` for each of its parameters. Skips the test where hypothesis isn't
    there."""
    try:
        from hypothesis import HealthCheck, given, settings, strategies
    except ImportError:
        test.skipTest("apt-get install python3-hypothesis")
    given_count = os.environ.get(CASES)
    limits = settings(
        max_examples=int(given_count or count),
        derandomize=given_count is None,
        database=None,
        deadline=None,
        suppress_health_check=list(HealthCheck),
    )
    limits(given(**drawn(strategies))(check))()
