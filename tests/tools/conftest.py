"""What all tests of the tools need."""

import pytest


@pytest.fixture(autouse=True, scope="session")
def built(program: object, shared_library: object) -> None:
    """The program and the library are there, which the tools call."""
