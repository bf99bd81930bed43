"""What is written: the live page with a recording in it, and the formats of profiles and of traces."""
