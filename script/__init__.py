"""What `parbegin` does beyond starting the program: builds it, finds files by name, checks many, debugs at a terminal."""
