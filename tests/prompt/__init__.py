"""The scorekeeper's prompt, in one window and in several."""
