# make             proves every crate, builds the programs, shows the worked numbers and lists the sample volume
# make test        the gate: everything, with the must-fail edits and all tests
# make compare     the archive against the independent implementation; N=1000000 volumes and 2,000,000 calls, SEED=5
#                  from this seed on
# make bench       the archive's speed against the independent implementation's
# make balladmoor  the command for members and the service bench: target/c/balladmoor, for x86-64
# make listing     the listing program: target/c/listing
# make example     the scale's program in small: target/c/scale
# make install     puts command, manual page, headers and archive in place, under PREFIX=/usr/local
# make uninstall   removes them again
# make dist        the same and the listing program, for people without the kit: target/dist/*.tar.gz
# make clean       removes what was made

all:
	rt all check
	tests/product.sh worked
	tests/x86.sh target/bin/worked
	$(MAKE) listing
	tests/product.sh sample
	tests/x86.sh target/bin/sample | tests/x86.sh $(OUT)/listing

test:
	.ci/run

compare: N = 100000
compare: SEED = 0
compare:
	tests/compare/both $(N) $(SEED)

# Times where programs run as they are, else instructions.
bench:
	if tests/x86.sh --native; then tests/compare/program bench; else tests/compare/instructions; fi

CFLAGS = -O2
COMPILE = tests/x86.sh --cc $(CFLAGS) -Wall -Wextra -Werror -std=c11 -pedantic -Iinclude -Itools
SHARED = tools/imagefile.c tools/savefile.c tools/say.c tools/standard.c tools/wholefile.c
COMMAND = tools/balladmoor.c tools/changing.c tools/entries.c tools/finding.c tools/getting.c tools/help.c tools/json.c \
	tools/map.c tools/marks.c tools/matching.c tools/print.c tools/putting.c tools/reading.c tools/refusal.c \
	tools/stamp.c
ARCHIVE = target/staticlib/libscale.a
MEMBER = target/staticlib/libmember.a
OUT = target/c

archive:
	tests/product.sh archive
	mkdir -p $(OUT)

member:
	tests/product.sh member

balladmoor: archive member
	$(COMPILE) $(COMMAND) $(SHARED) $(ARCHIVE) $(MEMBER) -o $(OUT)/balladmoor

listing:
	tests/product.sh listing
	mkdir -p $(OUT)
	$(COMPILE) tools/listing.c tools/say.c tools/standard.c target/staticlib/liblisting.a -o $(OUT)/listing

example: archive
	$(COMPILE) examples/scale.c $(SHARED) $(ARCHIVE) -o $(OUT)/scale

PREFIX = /usr/local
INTO = $(DESTDIR)$(PREFIX)
VERSION = $(shell cat VERSION)

# What install puts in place, and uninstall removes.
INSTALLED = bin/balladmoor include/balladmoor.h include/balladmoor_help.h lib/libscale.a lib/pkgconfig/balladmoor.pc \
	share/bash-completion/completions/balladmoor share/doc/balladmoor/INTERFACE.md share/doc/balladmoor/README.md \
	share/man/man1/balladmoor.1

# Where the pkg-config file says that all this is.
PC_PREFIX = $(PREFIX)

install: balladmoor
	install -D -m 755 -t $(INTO)/bin $(OUT)/balladmoor
	install -D -m 644 -t $(INTO)/include include/balladmoor.h include/balladmoor_help.h
	install -D -m 644 -t $(INTO)/lib $(ARCHIVE)
	install -D -m 644 -t $(INTO)/share/bash-completion/completions completion/balladmoor
	install -D -m 644 -t $(INTO)/share/doc/balladmoor docs/INTERFACE.md README.md
	install -D -m 644 -t $(INTO)/share/man/man1 balladmoor.1
	install -D -m 644 balladmoor.pc.in $(INTO)/lib/pkgconfig/balladmoor.pc
	sed -i 's|@PREFIX@|$(PC_PREFIX)|; s|@VERSION@|$(VERSION)|' $(INTO)/lib/pkgconfig/balladmoor.pc
	@tests/x86.sh --native || echo "Installed for x86-64. On this machine: tests/x86.sh $(INTO)/bin/balladmoor"

uninstall:
	rm -f $(addprefix $(INTO)/,$(INSTALLED))
	[ ! -d $(INTO)/share/doc/balladmoor ] || rmdir --ignore-fail-on-non-empty $(INTO)/share/doc/balladmoor

# The same sources and tools give the same bytes: no time, user, permission or order is this machine's.
DIST = target/dist
RELEASE = balladmoor-$(VERSION)-x86_64-linux
EPOCH = $${SOURCE_DATE_EPOCH:-$$(git log -1 --format=%ct || stat -c %Y VERSION)}

dist: listing
	rm -rf $(DIST)/$(RELEASE)
	$(MAKE) install DESTDIR=$(abspath $(DIST))/ PREFIX=$(RELEASE) PC_PREFIX='$$$${pcfiledir}/../..'
	install -m 755 -t $(DIST)/$(RELEASE)/bin $(OUT)/listing
	tar -C $(DIST) --sort=name --mtime=@$(EPOCH) --owner=0 --group=0 --numeric-owner --mode=u+w,go=rX -I 'gzip -9n' \
		-cf $(DIST)/$(RELEASE).tar.gz $(RELEASE)

clean:
	rm -rf target tests/compare/target crates/*/out

.PHONY: all test compare bench archive member balladmoor listing example install uninstall dist clean
