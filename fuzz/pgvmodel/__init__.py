"""A second statement of what the program `pgv` does, which shares nothing with the program."""
