# Both programs for whoever uses them. What else there is to make is in c/Makefile.
#
#   make install-programs PREFIX=$HOME/mac     proves and builds resfork and macheap, and installs them with their man pages
#                                              and what bash, zsh and fish need to complete their words
#   make uninstall-programs PREFIX=$HOME/mac   removes them
#
# PREFIX may have blanks; one that doesn't begin with / is counted from here. DESTDIR comes before it where a package is made.
# PROGRAMS is a folder with both programs, for which nothing is proved once more. Needs python3.
PREFIX = /usr/local
INSTALL = install
NAMES = resfork macheap
BIN = $(DESTDIR)$(PREFIX)/bin
SHARE = $(DESTDIR)$(PREFIX)/share
MAN = $(SHARE)/man/man1
BASH = $(SHARE)/bash-completion/completions
ZSH = $(SHARE)/zsh/site-functions
FISH = $(SHARE)/fish/vendor_completions.d

install-programs: $(if $(PROGRAMS),,prove-programs)
	set -e; made=$$(mktemp -d); trap 'rm -rf "$$made"' EXIT; tools/completions.py "$$made"; \
	$(INSTALL) -d "$(BIN)" "$(MAN)" "$(BASH)" "$(ZSH)" "$(FISH)"; \
	for name in $(NAMES); do \
		program="$(PROGRAMS)/$$name"; [ -n "$(PROGRAMS)" ] || program=crates/$$name/out/$$name; \
		$(INSTALL) -m 755 "$$program" "$(BIN)/$$name"; \
		$(INSTALL) -m 644 docs/$$name.1 "$(MAN)"; \
		$(INSTALL) -m 644 "$$made/bash/$$name" "$(BASH)"; \
		$(INSTALL) -m 644 "$$made/zsh/_$$name" "$(ZSH)"; \
		$(INSTALL) -m 644 "$$made/fish/$$name.fish" "$(FISH)"; \
	done

prove-programs:
	for name in $(NAMES); do (cd crates/$$name && rt run -- --help > /dev/null) || exit 1; done

uninstall-programs:
	for name in $(NAMES); do \
		rm -f "$(BIN)/$$name" "$(MAN)/$$name.1" "$(BASH)/$$name" "$(ZSH)/_$$name" "$(FISH)/$$name.fish"; \
	done

.PHONY: install-programs prove-programs uninstall-programs
