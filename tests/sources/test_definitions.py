"""What tests/believed and tests/allocation-failures find in the crates."""

import pytest

from tests.tools.samples import TOP, run


@pytest.mark.parametrize("name", ["believed", "allocation-failures"])
def test_crates(name: str) -> None:
    """The script finds nothing wrong, and says what it looked at."""
    ran = run([TOP / "tests" / name])
    print(ran.output.decode(), end="")
    assert (ran.status, ran.errors) == (0, ""), ran.output.decode()
    assert ran.output.startswith(name.encode())
