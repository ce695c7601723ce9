# Builds the proved program, and puts it in place with its manual page and completions.
PREFIX = /usr/local
DESTDIR =
place = $(DESTDIR)$(PREFIX)

all:
	./usebin --version

install: all
	install -D -m 755 crates/usebin/out/usebin '$(place)/bin/usebin'
	install -D -m 644 docs/usebin.1 '$(place)/share/man/man1/usebin.1'
	install -D -m 644 completions/usebin.bash '$(place)/share/bash-completion/completions/usebin'
	install -D -m 644 completions/_usebin '$(place)/share/zsh/site-functions/_usebin'

uninstall:
	rm -f '$(place)/bin/usebin' '$(place)/share/man/man1/usebin.1' \
	    '$(place)/share/bash-completion/completions/usebin' '$(place)/share/zsh/site-functions/_usebin'

.PHONY: all install uninstall
