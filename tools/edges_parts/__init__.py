"""The parts of tools/edges."""
