# Nothing is run.
