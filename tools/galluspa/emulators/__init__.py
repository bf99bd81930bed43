"""Other emulators: how they are asked, the trials on which they are compared with the machine, and what is found."""
