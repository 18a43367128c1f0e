"""Unit tests of what is pure in the companions: no program is built or called."""
