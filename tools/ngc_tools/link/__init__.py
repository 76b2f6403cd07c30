"""What console and page know of the player and of what it leaves: its datagrams, OUT as it goes, its machine."""
