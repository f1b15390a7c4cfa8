"""What `packaging/release-check` does with the files of a release: what a newcomer does, where nothing else is."""
