"""The parts of packaging/dist."""
