"""Scripts that try programs: each is a part of the gate."""
