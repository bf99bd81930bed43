"""What is found out about runs and recordings: searches, last writers, callers, coverage, profiles, and what is false."""
