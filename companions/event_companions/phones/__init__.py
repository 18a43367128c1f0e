"""Scores from the players' phones."""
