"""What drives the page: a browser with real events, what a user sees, the programs that tests open, and what must hold after each event."""
