"""What documents say of the programs."""
