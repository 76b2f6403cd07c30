"""A person's session with a running `ngc run`, without a screen."""
