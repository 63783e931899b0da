"""What tools/release makes: a Debian package, an archive that runs where it is unpacked, the page, and their sums."""
