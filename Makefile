# What everybody may want to do at the top of the repository:
#
#   make                  builds the program and the library; needs the Rattle kit, and proves all crates first (some 20 minutes)
#   make check            the quick suite: what can be tested here in two minutes, also without the kit
#   make test             every suite over what is built; the proofs themselves are checked by `rt ci` (.ci/run runs both)
#   make generated        writes everything that a script generates from the sources
#   make install PREFIX=/usr/local DESTDIR=     installs program, tools, man pages, completions and library
#   make uninstall PREFIX=.. DESTDIR=..         removes them
#   make dist             makes the packages, in dist/ (docs/install.md)
#   make site             makes the documentation as a site, in dist/site; `make site-serve` shows it on 127.0.0.1
#
# install and dist take what is built, and need no kit.

PREFIX ?= /usr/local
BINDIR ?= $(PREFIX)/bin
DATADIR ?= $(PREFIX)/share
MANDIR ?= $(DATADIR)/man
PROGRAM ?= crates/linksim/out/linksim
ARCHIVE = crates/nr_c/out/libnr_c.a
DIST ?= dist
export PROGRAM

# A command that fails ends its line, also inside a loop, so that an installation stops at the first failed copy.
.SHELLFLAGS = -ec

SUITES = program refused-growths c-library generated tools engines packages rtl
TOOLS = certify conform curve explain table vectors verify
SHIPPED = tools/paths.py $(shell find examples -type f -not -path '*/out/*' -not -name '*.pyc')
MADE = $(foreach name,linksim $(TOOLS:%=linksim-%),bash-completion/completions/$(name) zsh/site-functions/_$(name) \
    fish/vendor_completions.d/$(name).fish)
PAGES = README.md CHANGELOG.md CONTRIBUTING.md SECURITY.md $(shell find docs -name '*.md' -o -name '*.svg') $(wildcard crates/*/README.md)

TO_BIN = $(DESTDIR)$(BINDIR)
TO_DATA = $(DESTDIR)$(DATADIR)
TO_MAN = $(DESTDIR)$(MANDIR)
OURS = $(TO_DATA)/linksim
# The tools as they are seen from the folder of the program.
FROM_BIN = $$(realpath -ms --relative-to='$(BINDIR)' '$(DATADIR)/linksim/tools')

all:
	@if ! [ -f $(PROGRAM) ] || ! [ -f $(ARCHIVE) ]; then \
	    command -v rt > /dev/null || { echo "make: program and library are built by rt of the Rattle kit, which is not in PATH;" \
	        "docs/install.md has packages that need no kit" >&2; exit 1; }; \
	    tools/first-build; \
	fi
	$(MAKE) -C c all

# Nothing below proves a crate by surprise: what is missing is named.
built:
	@for one in $(PROGRAM) $(ARCHIVE); do \
	    [ -f "$$one" ] || { echo "make: $$one is not built: run make first, which needs the Rattle kit" >&2; exit 1; }; \
	done

# The help of some tools, of which man pages are made, needs the library too.
library: built
	$(MAKE) -C c all

install: install-program
	$(MAKE) -C c install

uninstall: uninstall-program
	$(MAKE) -C c uninstall

install-program: library
	install -d "$(TO_BIN)" "$(OURS)/tools"
	install -m 755 $(PROGRAM) "$(TO_BIN)/linksim"
	install -m 755 $(TOOLS:%=tools/%) "$(OURS)/tools"
	for one in $(SHIPPED); do install -D -m 644 "$$one" "$(OURS)/$$one"; done
	for tool in $(TOOLS); do ln -sf "$(FROM_BIN)/$$tool" "$(TO_BIN)/linksim-$$tool"; done
	chmod 755 "$(OURS)/examples/draw-table"
	packaging/generated "$(PROGRAM)" "$(TO_DATA)" "$(TO_MAN)"
	for one in $(PAGES); do install -D -m 644 "$$one" "$(TO_DATA)/doc/linksim/$$one"; done

uninstall-program:
	rm -f "$(TO_BIN)/linksim"
	for tool in $(TOOLS); do rm -f "$(TO_BIN)/linksim-$$tool"; done
	for one in $(MADE); do rm -f "$(TO_DATA)/$$one"; done
	rm -f "$(TO_MAN)/man1/linksim.1" $(TOOLS:%="$(TO_MAN)/man1/linksim-%.1") "$(TO_MAN)/man5/linksim-formats.5"
	rm -rf "$(TO_DATA)/doc/linksim"
	rm -rf "$(OURS)"

dist: library
	packaging/dist --out "$(DIST)"

site:
	packaging/site

site-serve:
	packaging/site --serve

check:
	tests/quick

test: built
	@status=0; for one in $(SUITES); do tests/$$one || status=1; done; exit $$status

generated:
	tests/generated --write
	gate/believed-words --closure --write
	gate/prices --write
	docs/pictures/draw-pipeline

.PHONY: all built library install uninstall install-program uninstall-program dist site site-serve check test generated
