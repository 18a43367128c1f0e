"""What helps at the table of an event that event_reporter keeps: a prompt for the scorekeeper, sheets for the
wall, and scores from the players' phones.

Each companion calls the program for what is done or shown, works out no rule of its own, and touches the
event's file through the program alone, copies apart.
"""
