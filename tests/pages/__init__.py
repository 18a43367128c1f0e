"""Sheets and boards."""
