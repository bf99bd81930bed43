"""The assembler: from the tokens of a source to a memory and the settings of a session."""
