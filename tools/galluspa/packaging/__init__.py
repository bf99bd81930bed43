"""How a clone is built and packed. No package has this folder."""
