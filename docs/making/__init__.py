"""What `docs/make` is made of: it reads the text of the crates and writes what the documents repeat of it."""
