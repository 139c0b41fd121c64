"""Rules, packets, sessions and dumps that are drawn at random by a seed: `lots` is what all of them draw by."""
