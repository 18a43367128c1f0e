"""What all companions stand on: calls of the program, readers of its texts and lists, an event between two commands."""
