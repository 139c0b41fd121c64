# make install [PREFIX=/usr/local] [DESTDIR=], and make uninstall with the same words: what the archive of tools/release has.
PREFIX = /usr/local
DESTDIR =

install:
	tools/install 'PREFIX=$(PREFIX)' 'DESTDIR=$(DESTDIR)'

uninstall:
	tools/install --remove 'PREFIX=$(PREFIX)' 'DESTDIR=$(DESTDIR)'

.PHONY: install uninstall
