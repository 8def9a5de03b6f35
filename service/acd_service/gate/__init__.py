"""The gate of a desk: who comes in, with which password or session, and what a login may ask for."""
