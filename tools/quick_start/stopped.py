"""The one way in which building ends early."""

# None of the statuses of the programs, which end with 0 to 5.
NOT_BUILT = 70


class Stopped(Exception):
    """Says why there is no program to run, in the line or lines that the user is told."""
