"""The bank, served to many clients: `serve`, and `hold` for shell scripts."""
