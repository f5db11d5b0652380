"""The parts of tools/build, which proves and builds the program."""
