"""What other parts of the desk replace before long, and what types and coverage leave out until then."""
