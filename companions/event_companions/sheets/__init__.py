"""Sheets for the wall, and a board for the screen."""
