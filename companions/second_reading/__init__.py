"""A second reading of the rules and formats, which never calls the program: the command event-check stands on it, and so do the tests."""
