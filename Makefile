# `make` alone lists its targets. The text after ## is what it says of each.

SCRIPT = examples/time.script

help: ## what can be made: this list
	@sed -n 's/^\([a-z-]*\):.*## /  make \1|/p' Makefile | awk -F'|' '{ printf "%-22s%s\n", $$1, $$2 }'

demo: ## starts the server, plays to it, records: a sound file and a picture in demo/; needs no build, half a minute
	@tools/demo

script: ## runs a script (SCRIPT=examples/time.script) and says in words what came of it; needs no build, half a minute
	@room=$$(mktemp -d) && trap 'rm -rf "$$room"' EXIT && \
	if [ -x bin/afd ]; then echo "(the proved program)"; bin/afd script < $(SCRIPT) > "$$room/transcript"; \
	else $(MAKE) -s kit || exit 1; echo "(no proved program in bin/: run before any proof, by rt try)"; \
	(cd crates/afd && rt try -- script < $(abspath $(SCRIPT)) > "$$room/transcript" 2> "$$room/said") || { cat "$$room/said"; exit 1; }; fi && \
	if [ -x tools/explain ]; then tools/explain $(SCRIPT) "$$room/transcript"; else cat "$$room/transcript"; fi

# rt is the command of Rattle's kit
kit:
	@command -v rt > /dev/null || { echo "make: rt, the command of Rattle's kit, is not on the path" >&2; exit 1; }

build: kit ## proves everything, and leaves the programs bin/afd and bin/af: some two hours of processor time, once
	rt all check && mkdir -p bin && cd crates/afd && rt run -- script < stdin > /dev/null && cp out/afd ../../bin/afd
	cd crates/af && rm -f out/af && { rt run -- arecord 127.0.0.1:1 --frames=1 2> /dev/null; cp out/af ../../bin/af; }
	tools/stamp write bin/afd bin/af

check: kit ## the quick check: layout, pages, and all worked cases by programs without a proof: three minutes on four processors
	@tools/check

check-scripts: ## the worked scripts and exercises of tests/, by the proved program: seconds
	@tools/check-scripts

test: kit ## the gate: every proof, test, wrong body and worked case
	.ci/run

fmt: ## lays out each crate's files
	for crate in crates/*; do (cd $$crate && rt fmt) || exit; done

# Where install puts things is where Debian's policy has them. A package says PREFIX=/usr, DESTDIR for the folder that it is made
# in, WIRESHARK=/usr/lib/$(DEB_HOST_MULTIARCH)/wireshark/plugins for the dissector, and ZSH=/usr/share/zsh/vendor-completions for
# the completions of zsh, where Debian's looks; it compresses the pages itself. tools/make-deb makes one so.
# Each path may have spaces, quotes and other signs that the shell reads. What cannot work is refused, see below.
PREFIX = /usr/local
DESTDIR =
AFD = bin/afd
AF = bin/af
WIRESHARK = $(PREFIX)/share/audiofile
ZSH = $(PREFIX)/share/zsh/site-functions

# characters that make cannot take as they are
empty :=
space := $(empty) $(empty)
tab := $(empty)	$(empty)
define newline


endef

# a path as a word of the shell, as a word of a command in a unit, and as sed puts it in place of another
shell_word = '$(subst ','\'',$1)'
unit_word = $(subst $(space),\s,$(subst %,%%,$1))
sed_text = $(subst |,\|,$(subst &,\&,$(subst \,\\,$1)))

# each of these is a word of the shell
PROGRAMS = $(call shell_word,$(DESTDIR)$(PREFIX)/bin)
SHARE = $(call shell_word,$(DESTDIR)$(PREFIX)/share)
MANUALS = $(SHARE)/man
UNITS = $(call shell_word,$(DESTDIR)$(PREFIX)/lib/systemd/system)
USER_UNITS = $(call shell_word,$(DESTDIR)$(PREFIX)/lib/systemd/user)
BASH_COMPLETIONS = $(SHARE)/bash-completion/completions
ZSH_COMPLETIONS = $(call shell_word,$(DESTDIR)$(ZSH))
PAGES = $(SHARE)/doc/audiofile
DISSECTORS = $(call shell_word,$(DESTDIR)$(WIRESHARK))
SYSTEM_UNITS = afd.service audiofile-relay@.service audiofile-answer.service audiofile-logger.service
UNIT_EDIT = $(call shell_word,s|/usr/local/bin|$(call sed_text,$(call unit_word,$(PREFIX)/bin))|)
ADAPTERS = $(wildcard contrib/audiofile-*-card contrib/audiofile-card-run contrib/audiofile-phone-*) contrib/audiofile-status \
  contrib/audiofile-playlist contrib/audiofile-meter
# what audiofile-status, audiofile-playlist and audiofile-meter need: the modules, and the page
STATUS = $(wildcard contrib/python/audiofile*.py) contrib/audiofile-status.html
EXAMPLES = $(wildcard contrib/*.conf examples/*.conf) contrib/asoundrc $(wildcard examples/*.script examples/*.py examples/*.sh) contrib/python/audiofile.py
DISSECTOR = $(wildcard contrib/audiofile.lua)

# Refuses a path that cannot work, or that may not be the one that is meant. Make reads all lines of a recipe before it runs one,
# so nothing is touched before.
dollar = $(if $(filter-out file,$(origin $1)),$(findstring $$,$(subst $$$$,,$(value $1))))
no_dollar = $(if $(call dollar,$1),$(error $1 has a $$ that make takes for itself: write $$$$ where a name has one))
no_newline = $(if $(findstring $(newline),$($1)),$(error $1 has a newline))
from_root = $(if $(filter /%,$(firstword $($1))),,$(error $1 does not begin with a slash))
# systemd starts no program that has one of these in its path
in_no_unit = $(findstring ',$(PREFIX))$(findstring ",$(PREFIX))$(findstring \,$(PREFIX))$(findstring $(tab),$(PREFIX))
refused = $(foreach name,PREFIX DESTDIR WIRESHARK ZSH AFD AF,$(call no_dollar,$(name))) \
  $(foreach name,PREFIX DESTDIR WIRESHARK ZSH AFD AF,$(call no_newline,$(name))) \
  $(foreach name,$(if $(PREFIX),PREFIX) WIRESHARK ZSH,$(call from_root,$(name))) \
  $(if $(in_no_unit),$(error PREFIX has a quote, a backslash or a tab: systemd starts no program in such a folder)) \
  $(if $(filter ~%,$(firstword $(DESTDIR))),$(error DESTDIR begins with a ~ that the shell did not replace: write the whole path))

install: ## puts programs, manual pages, units, completions, examples and dissector below PREFIX (/usr/local); after make build
	@$(refused)
	@for program in $(call shell_word,$(AFD)) $(call shell_word,$(AF)); do [ -f "$$program" ] && [ -x "$$program" ] || \
	  { printf '%s is not there: make build proves and makes it\n' "$$program" >&2; exit 1; }; done
	install -d -- $(PROGRAMS) $(MANUALS)/man1 $(MANUALS)/man5 $(MANUALS)/man7 $(MANUALS)/man8 $(UNITS) $(USER_UNITS)
	install -d -- $(PAGES)/examples $(DISSECTORS) $(BASH_COMPLETIONS) $(ZSH_COMPLETIONS) $(SHARE)/audiofile
	install -m 755 -- $(call shell_word,$(AFD)) $(PROGRAMS)/afd
	install -m 755 -- $(call shell_word,$(AF)) $(PROGRAMS)/af
	[ ! -f $(call shell_word,$(AFD).stamp) ] || install -m 644 -- $(call shell_word,$(AFD).stamp) $(SHARE)/audiofile/afd.stamp
	[ ! -f $(call shell_word,$(AF).stamp) ] || install -m 644 -- $(call shell_word,$(AF).stamp) $(SHARE)/audiofile/af.stamp
	install -m 755 -- $(ADAPTERS) $(PROGRAMS)
	install -m 644 -- $(STATUS) $(SHARE)/audiofile
	install -m 644 -- man/af.1 $(MANUALS)/man1/af.1
	install -m 644 -- man/audiofile-status.1 man/audiofile-playlist.1 man/audiofile-meter.1 $(MANUALS)/man1
	install -m 644 -- man/afd-script.5 $(MANUALS)/man5/afd-script.5
	install -m 644 -- man/audiofile-protocol.7 $(MANUALS)/man7/audiofile-protocol.7
	install -m 644 -- man/afd.8 $(MANUALS)/man8/afd.8
	for unit in $(SYSTEM_UNITS); do sed $(UNIT_EDIT) contrib/$$unit > $(UNITS)/$$unit && chmod 644 -- $(UNITS)/$$unit || exit; done
	sed $(UNIT_EDIT) contrib/afd-user.service > $(USER_UNITS)/afd.service && chmod 644 -- $(USER_UNITS)/afd.service
	install -m 644 -- contrib/completions/audiofile.bash $(BASH_COMPLETIONS)/af
	ln -sf -- af $(BASH_COMPLETIONS)/afd
	ln -sf -- af $(BASH_COMPLETIONS)/audiofile-meter
	install -m 644 -- contrib/completions/_audiofile $(ZSH_COMPLETIONS)/_audiofile
	install -m 644 -- $(EXAMPLES) $(PAGES)/examples
	install -m 644 -- LICENSE $(PAGES)/copyright
	for file in $(DISSECTOR); do install -m 644 -- "$$file" $(DISSECTORS); done

uninstall: ## takes away what install put there, with the same PREFIX and DESTDIR, and leaves configuration and sound
	@$(refused)
	rm -f -- $(PROGRAMS)/afd $(PROGRAMS)/af $(addprefix $(PROGRAMS)/,$(notdir $(ADAPTERS)))
	rm -f -- $(addprefix $(UNITS)/,$(SYSTEM_UNITS)) $(USER_UNITS)/afd.service $(PAGES)/copyright
	rm -f -- $(BASH_COMPLETIONS)/af $(BASH_COMPLETIONS)/afd $(BASH_COMPLETIONS)/audiofile-meter $(ZSH_COMPLETIONS)/_audiofile
	rm -f -- $(SHARE)/audiofile/afd.stamp $(SHARE)/audiofile/af.stamp
	rm -f -- $(addprefix $(SHARE)/audiofile/,$(notdir $(STATUS))) $(MANUALS)/man1/audiofile-status.1 $(MANUALS)/man1/audiofile-playlist.1
	rm -f -- $(MANUALS)/man1/audiofile-meter.1
	rm -f -- $(MANUALS)/man1/af.1 $(MANUALS)/man5/afd-script.5 $(MANUALS)/man7/audiofile-protocol.7 $(MANUALS)/man8/afd.8
	rm -f -- $(addprefix $(PAGES)/examples/,$(notdir $(EXAMPLES))) $(addprefix $(DISSECTORS)/,$(notdir $(DISSECTOR)))
	rm -f -- $(PAGES)/examples/__pycache__/audiofile.*.pyc
	for folder in $(PAGES)/examples/__pycache__ $(PAGES)/examples $(PAGES) $(SHARE)/audiofile; do \
	  [ ! -d "$$folder" ] || rmdir --ignore-fail-on-non-empty -- "$$folder"; done

check-install: ## tries install and uninstall in a temporary folder, and the manual pages: half a minute at most
	@tools/check-install

.PHONY: help demo script kit build install uninstall check check-install check-scripts test fmt
