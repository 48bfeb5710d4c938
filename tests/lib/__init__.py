"""What scripts of tests/programs and bench/ share."""
