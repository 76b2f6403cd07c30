"""What `ngc-setup` asks, and the files that it makes of the answers."""
