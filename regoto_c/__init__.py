"""Eliminates the gotos of any C function, by the proved program `regoto` on its control flow."""
