"""The operator's page: a session of `ngc run` for browsers, and the server that gives it to them."""
