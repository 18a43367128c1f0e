"""Scores from phones."""
