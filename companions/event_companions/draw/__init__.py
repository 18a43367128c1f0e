"""Rounds that dice draw: the number and the key, FILE.draws, and what pages show of them."""
