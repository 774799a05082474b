# Builds the proved program, and installs it with the tools over it, the manual pages, and completion for bash:
#     make
#     make install PREFIX=/usr/local DESTDIR=
# `make docs` makes the pages of definitions and of answers, and `make check` runs the gate.
PREFIX = /usr/local
DESTDIR =
INSTALL = install

program = crates/ram_drive/out/ram_drive
commands = dvdram-iscsi dvdram-nbd nbdkit-dvdram-plugin ram-ctl ram-map
pages = ram_drive.1 dvdram-iscsi.1 nbdkit-dvdram-plugin.1 ram-map.1
bin = $(DESTDIR)$(PREFIX)/bin
lib = $(DESTDIR)$(PREFIX)/lib/ram_drive
man1 = $(DESTDIR)$(PREFIX)/share/man/man1
completions = $(DESTDIR)$(PREFIX)/share/bash-completion/completions

.PHONY: all docs check install uninstall
all:
	./drive --version

docs:
	checks/definitions
	checks/answers

check:
	.ci/run

install: all
	$(INSTALL) -d $(bin) $(lib)/dvdram $(lib)/sg $(man1) $(completions)
	$(INSTALL) -m 755 $(program) $(bin)/ram_drive
	$(INSTALL) -m 644 tools/dvdram/*.py $(lib)/dvdram
	$(INSTALL) -m 644 tools/sg/dvdram_sg.c $(lib)/sg
	$(INSTALL) -m 644 tools/completion.bash $(completions)/ram_drive
	$(INSTALL) -m 644 $(addprefix man/,$(pages)) $(man1)
	for command in $(commands); do \
	    $(INSTALL) -m 755 tools/$$command $(lib) && ln -sf ../lib/ram_drive/$$command $(bin) && \
	    ln -sf ram_drive $(completions)/$$command || exit; \
	done

uninstall:
	rm -rf $(lib)
	rm -f $(addprefix $(bin)/,ram_drive $(commands)) $(addprefix $(man1)/,$(pages))
	rm -f $(addprefix $(completions)/,ram_drive $(commands))
