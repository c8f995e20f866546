# make: prints the goals. make install puts the program of dist/ and the script that makes schedules into PREFIX/bin; make uninstall takes them away again.
PREFIX ?= /usr/local
bin = $(DESTDIR)$(PREFIX)/bin

.PHONY: help install uninstall
help:
	@echo 'make install    copies dist/plm86 and tools/schedule, as plm86-schedule, to $(bin)'
	@echo 'make uninstall  removes these two from $(bin)'
	@echo 'PREFIX=FOLDER is another folder than /usr/local, and DESTDIR=FOLDER stands before it. Without an installation: ./plm86 --help'

install:
	@[ -n "$$(tools/digest --find dist)" ] || { echo "make: dist/ has no program of these sources (CONTRIBUTING.md, Commands)" >&2; exit 1; }
	install -D -m 755 dist/plm86 "$(bin)/plm86"
	install -D -m 755 tools/schedule "$(bin)/plm86-schedule"

uninstall:
	rm -f "$(bin)/plm86" "$(bin)/plm86-schedule"
