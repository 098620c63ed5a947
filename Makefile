# make install PREFIX=..: the programs as PREFIX/bin/check and PREFIX/bin/pair.
PREFIX ?= /usr/local

.PHONY: install

install:
	scripts/build checkprogram pairprogram
	install -D -m 755 target/bin/checkprogram $(DESTDIR)$(PREFIX)/bin/check
	install -D -m 755 target/bin/pairprogram $(DESTDIR)$(PREFIX)/bin/pair
