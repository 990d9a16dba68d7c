# Installs bmesh with its man page, the completion of its words for bash and zsh, the manual, the recipes and the
# examples:
#
#     make install [PREFIX=/usr/local] [DESTDIR=FOLDER]
#     make uninstall [PREFIX=/usr/local] [DESTDIR=FOLDER]
#
# Nothing is built, and nothing is written but below DESTDIR with PREFIX behind it. A package of Debian takes
# PREFIX=/usr zshcompletiondir=/usr/share/zsh/vendor-completions.

PREFIX = /usr/local
DESTDIR =
PROGRAM = crates/bmesh_cli/out/bmesh_cli
INSTALL = install

bindir = $(PREFIX)/bin
mandir = $(PREFIX)/share/man
docdir = $(PREFIX)/share/doc/bmesh
bashcompletiondir = $(PREFIX)/share/bash-completion/completions
zshcompletiondir = $(PREFIX)/share/zsh/site-functions

# They lie in docdir as they do here, those of docs/ at its top.
DOCUMENTS = LICENSE docs/manual.md docs/recipes.md \
	$(sort $(wildcard docs/pictures/*.svg examples/README.md examples/*/*))

.PHONY: help install uninstall

help:
	@sed -n '/^$$/q; s/^# \{0,1\}//p; /^#$$/s/.*//p' Makefile

$(PROGRAM):
	@echo "$(PROGRAM) is missing: ./bmesh builds it, by the Rattle toolchain's command rt" >&2; exit 1

install: $(PROGRAM)
	@$(INSTALL) -D -m 755 "$(PROGRAM)" "$(DESTDIR)$(bindir)/bmesh"
	@$(INSTALL) -D -m 644 docs/bmesh.1 "$(DESTDIR)$(mandir)/man1/bmesh.1"
	@$(INSTALL) -D -m 644 tools/completions/bmesh.bash "$(DESTDIR)$(bashcompletiondir)/bmesh"
	@$(INSTALL) -D -m 644 tools/completions/bmesh.zsh "$(DESTDIR)$(zshcompletiondir)/_bmesh"
	@for file in $(DOCUMENTS); do \
		$(INSTALL) -D -m 644 "$$file" "$(DESTDIR)$(docdir)/$${file#docs/}" || exit; \
	done
	@echo "bmesh is installed as $(DESTDIR)$(bindir)/bmesh"

uninstall:
	@rm -f "$(DESTDIR)$(bindir)/bmesh" "$(DESTDIR)$(mandir)/man1/bmesh.1"
	@rm -f "$(DESTDIR)$(bashcompletiondir)/bmesh" "$(DESTDIR)$(zshcompletiondir)/_bmesh"
	@for file in $(DOCUMENTS); do rm -f "$(DESTDIR)$(docdir)/$${file#docs/}"; done
	@[ ! -d "$(DESTDIR)$(docdir)" ] || find "$(DESTDIR)$(docdir)" -depth -type d -empty -delete
	@echo "bmesh is no longer installed below $(DESTDIR)$(PREFIX)"
