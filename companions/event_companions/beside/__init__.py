"""What lies beside FILE, a module for each ending."""
