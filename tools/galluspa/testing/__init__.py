"""The plugin of pytest, by which a system has a regression suite in a repository of its own."""

# The files that are tests, by the ends of their names; and the property of a report that says what was approved.
SCRIPT, RECORDING = ".rerun.json", ".orsr"
APPROVED = "galluspa"
