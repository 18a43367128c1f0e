"""All tests of Python. What a part of the test command has stands in suites.py."""
import tools  # noqa: F401  it puts what is installed on the path
