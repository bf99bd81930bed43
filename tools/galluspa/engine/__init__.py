"""The program and the library, which give every answer; and the run of a recording, instruction by instruction, over them."""
