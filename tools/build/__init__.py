"""Builds of the product, proved or not: what its launchers need."""
