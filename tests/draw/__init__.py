"""Rounds that dice draw, and what checks them."""
