"""The parts of tools/dist, which makes a release."""
