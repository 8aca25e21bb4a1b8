"""The two sides of a comparison, and the sessions and scripts that are compared."""
