"""The program by command lines, scripts and HTTP."""
