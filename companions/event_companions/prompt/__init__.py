"""The prompt for the scorekeeper."""
