"""What every tool needs of the system: its command line, files, child processes, time limits, and where the parts are installed."""
