# The targets that people expect. `./dev` has those of working on the sources.

PREFIX ?= /usr/local
DESTDIR ?=

.PHONY: all prove test hub install uninstall

# The program of these sources: the shipped one, the one that was built here, or one that is proved and built now.
all: hub
	@tools/program >/dev/null && ./tsd --version

# The hub in Rust, where there is cargo. Without it, or where it is too old, the one in Python is installed.
hub:
	@! command -v cargo >/dev/null || (cd hub && cargo build --release --offline --quiet) || \
		echo "the compiled tsd-hub can't be built: Python's does the same" >&2

# The merge gate: all proofs, from nothing.
prove:
	bash .ci/run

test:
	./test

install: hub
	tools/install install "$(DESTDIR)$(PREFIX)"

# Takes away what `install` wrote there, and the folders that are empty then.
uninstall:
	tools/install uninstall "$(DESTDIR)$(PREFIX)"
