"""The parts of tools/wrong_bodies.py."""
