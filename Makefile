# make            proves what the program stands on, and builds it; needs rt, the command of the Rattle kit
# make check      runs the gate
# make ship       ships the program that was built
# make pages      writes the generated pages
# make install    installs the program that was built or is shipped, whichever is newer, and all that belongs to it, into PREFIX
# make uninstall  takes it away again, but for files that were changed since
# make deb        makes Debian packages of all that, in out
#
# With DESTDIR, PREFIX lies below that folder, as for a package: make install DESTDIR=/tmp/stage PREFIX=/usr
# LIBDIR is where below PREFIX the library for C lies.
PREFIX = /usr/local
LIBDIR = lib
export DESTDIR PREFIX LIBDIR
.PHONY: build check ship pages install uninstall deb

build:
	@tools/build

check:
	@./check

ship:
	@tools/ship

pages:
	@tools/pages

install:
	@tools/install "$$DESTDIR$$PREFIX"

uninstall:
	@tools/install --undo "$$DESTDIR$$PREFIX"

deb:
	@tools/deb
