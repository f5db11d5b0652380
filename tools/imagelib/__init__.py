"""The parts of tools/image, which packs, lists, checks and unpacks the images that dettrace runs."""
