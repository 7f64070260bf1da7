"""The parts of vug, one subject a module."""
