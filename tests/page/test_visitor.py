"""The page by random events, with fixed seeds: what was shown as kept is there again, each saved recording is accepted, and the console has no error."""

import pytest

from tests.page.driver.visitor import visit


@pytest.mark.parametrize("seed", [11, 12])
def test_visitor(seed: int) -> None:
    """Nothing is lost in two tabs that are loaded anew, ended and filled in turn."""
    assert visit(seed, 180) == 0
