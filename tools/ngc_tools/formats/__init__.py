"""What stands in files and streams: read and written here, each format once."""
