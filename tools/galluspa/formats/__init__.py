"""What is read and written: recordings, sessions and their parts, instructions, symbol files, traces, scripts and notes."""
