"""The desk in a browser's window on the same machine."""
