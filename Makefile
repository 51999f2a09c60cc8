# Packs what the gate has built: an archive and Debian packages, into dist/. `tools/dist --help` says what it needs.
.PHONY: dist
dist:
	tools/dist
