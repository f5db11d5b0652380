"""The parts of tools/run, which packs a folder, runs a program in it, and says how that ended."""
