"""Restructures the C files of real projects by regoto-c, builds the projects without goto and runs their own tests."""
