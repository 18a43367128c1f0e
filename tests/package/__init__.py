"""What is released and installed."""
