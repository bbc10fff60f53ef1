"""The archive that is handed on: of which commit, by which gate, and what is in it."""


class Refused(Exception):
    """Why there is no release."""
