"""Memories that stay in their places: their modules, the sequencer, and what judges how they were connected."""
