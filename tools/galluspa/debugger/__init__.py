"""The commands of `galluspa debug`."""
