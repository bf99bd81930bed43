"""The tests, a package for each part; tests/run starts them."""
