"""The parts of pages that `tools/pages` generates."""
