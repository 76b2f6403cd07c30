"""What a disk does with records that are written and synced as `ngc` does it."""
