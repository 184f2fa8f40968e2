# Builds, tests and installs the program: make, make check, make install PREFIX=/where
PREFIX = /usr/local
PROGRAMS = gier gier_list

.PHONY: all check install

all:
	for program in $(PROGRAMS); do ./$$program --version || exit 1; done

check:
	tests/all

install: all
	install -d $(DESTDIR)$(PREFIX)/bin $(DESTDIR)$(PREFIX)/share/man/man1
	for program in $(PROGRAMS); do \
		install -m 755 crates/$$program/out/$$program $(DESTDIR)$(PREFIX)/bin/ && \
		install -m 644 docs/$$program.1 $(DESTDIR)$(PREFIX)/share/man/man1/ || exit 1; \
	done
