"""The program and the server: how they start, serve, keep their file, and end."""
