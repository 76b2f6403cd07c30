"""What the tools around `ngc` share. None of it reads G-code by rules of its own: `ngc` decides."""
