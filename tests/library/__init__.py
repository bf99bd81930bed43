"""The tests of the library for C, which `tests/run library` runs."""
