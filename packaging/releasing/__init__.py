"""What `packaging/release` makes of what is built: archives, packages of Debian, the wheel and an image."""
