"""The tests of the page and of its module, which `tests/run page` runs."""
