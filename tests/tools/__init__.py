"""The tests of the tools, a module for each, and what they share: samples, a browser, Debian packages."""
