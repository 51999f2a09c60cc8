"""What tools/dist and tools/man-pages are made of: archive, Debian packages, list of contents, manual, completions."""
