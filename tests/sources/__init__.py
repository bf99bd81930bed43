"""The tests of the sources, which `tests/run sources` runs: nothing has to be built for them."""
