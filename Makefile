# make test is what the gate, .ci/run, runs: its last line is 'N passed, 0 failed'.
# make install puts the header, the archive and hub.pc under DESTDIR and PREFIX, and make uninstall takes them away again.
# What a rule that fails has written is taken away.
.DELETE_ON_ERROR:
.PHONY: test archive cases shared install uninstall run replay speed expected

PREFIX = /usr/local
INCLUDEDIR = $(PREFIX)/include
LIBDIR = $(PREFIX)/lib
DESTDIR =

archive_file = target/staticlib/libhub.a
sources = crates.txt toolchain $(shell find crates -name out -prune -o \( -name '*.rt' -o -name '*.antt' \) -print)
version = $(shell sed -n 's/^\#define HUB_VERSION "\(.*\)"$$/\1/p' include/hub.h)

test:
	@sh .ci/test.sh

archive: $(archive_file)

# Whoever installs need not be who proved: nothing is made again while no source is newer.
$(archive_file): $(sources)
	@sh tools/toolchain
	@sh tools/archive

# The program through which make replay and the tests compare lent tables.
cases: target/bin/cases

target/bin/cases: $(sources) crates/cases/stdin crates/cases/stdout
	@sh tools/toolchain
	@sh tools/cases

# On x86-64 it is one line of cc, which README.md has.
shared: $(archive_file)
	@sh tools/shared target/staticlib/libhub.so $(archive_file)

install: $(archive_file)
	@case '$(PREFIX)$(INCLUDEDIR)$(LIBDIR)' in *[\&\|\ ]*) echo 'make install: PREFIX has a blank, & or |, which hub.pc cannot have'; exit 2 ;; esac
	@for folder in '$(DESTDIR)$(INCLUDEDIR)' '$(DESTDIR)$(LIBDIR)' '$(DESTDIR)$(LIBDIR)/pkgconfig'; do \
	    [ -d "$$folder" ] || install -d -m 755 "$$folder" || exit 1; done
	@install -m 644 include/hub.h '$(DESTDIR)$(INCLUDEDIR)/hub.h'
	@install -m 644 $(archive_file) '$(DESTDIR)$(LIBDIR)/libhub.a'
	@sed -e 's|@PREFIX@|$(PREFIX)|' -e 's|@INCLUDEDIR@|$(INCLUDEDIR)|' -e 's|@LIBDIR@|$(LIBDIR)|' -e 's|@VERSION@|$(version)|' \
	    tools/hub.pc.in >'$(DESTDIR)$(LIBDIR)/pkgconfig/hub.pc'
	@chmod 644 '$(DESTDIR)$(LIBDIR)/pkgconfig/hub.pc'

uninstall:
	@rm -f '$(DESTDIR)$(INCLUDEDIR)/hub.h' '$(DESTDIR)$(LIBDIR)/libhub.a' '$(DESTDIR)$(LIBDIR)/pkgconfig/hub.pc'

# A talk of a bench with a hub on the sample, in several answers; run again it goes on where the book stands.
run: target/player
	@mkdir -p target/run
	@sh tools/run target/player --limit 400 --answer-bytes 200 player/sample/book.store target/run/book

# Looks into a fault from the field: CASE is a file of cases, as player/sample/sample.cases is one. Every call in it is made by
# library and peer, and a difference is a failure. If cases in it lend tables, these are compared through target/bin/cases, which
# make cases makes.
replay: $(archive_file)
	@test -n '$(CASE)' || { echo 'make replay CASE=FILE: a file of cases, such as player/sample/sample.cases'; exit 2; }
	@sh peer/replay.sh '$(CASE)'

target/player: $(wildcard player/*.c player/*.h) include/hub.h tools/cc $(archive_file)
	@sh tools/cc $@ player/*.c $(archive_file)

# Library against peer and memcpy, as ratios.
speed: $(archive_file)
	@sh peer/speed.sh

# Writes the stored lines of the tests by the peer, and shows what moved: crates/cases/stdout, tests/answers.out, tests/asking.out
# and tests/putting.out.
expected:
	@sh peer/expected.sh
