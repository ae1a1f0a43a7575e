# make            the library (static and shared), the listing program and, where cargo is, the command, in build/
# make sample     the listing program, run on a sample
# make test       the gate: every proof, the must-fail edits, the programs and the outside checks
# make install    header, libraries, pkg-config file and what is built of program and command under PREFIX (and DESTDIR)
# make clean      removes build/; what is proved stays in crates/*/out
#
# rt proves a crate again only where it or something below it has changed.
PREFIX = /usr/local
DESTDIR =
CC = cc
VERSION := $(shell sed -n 's/^.define POMTHIJA_VERSION //p' include/pomthija.h)
to = $(DESTDIR)$(PREFIX)

# How the static library and the program of a crate are made, crates/NAME/out/libNAME.a and crates/NAME/out/NAME. The gate, which has
# just proved all, says it in another way.
ARCHIVE = cd crates/$(1) && rt lib
PROGRAM = cd crates/$(1) && rt run -- --version

.PHONY: all library program command sample test install clean

all: library program command

library:
	$(call ARCHIVE,pomthija_c)
	$(call ARCHIVE,pomthija_sentence_c)
	mkdir -p build
	rm -f build/libpomthija.a
	cd build && for crate in pomthija_c pomthija_sentence_c; do \
	  $(AR) x ../crates/$$crate/out/lib$$crate.a && $(AR) rc libpomthija.a $$crate.o && rm $$crate.o || exit 1; done
	$(AR) s build/libpomthija.a
	$(CC) -shared -Wl,-soname,libpomthija.so.$(VERSION) -Wl,--whole-archive build/libpomthija.a -Wl,--no-whole-archive -o build/libpomthija.so

program:
	$(call PROGRAM,listing_program)
	mkdir -p build
	cp crates/listing_program/out/listing_program build/listing

command: library
	if [ -n "$$(command -v cargo)" ]; then cd lister && cargo build --release --quiet && cp target/release/pomthija ../build/; \
	  else echo 'build/pomthija is not built: cargo is absent'; fi

sample: program
	build/listing < examples/first.sheet

test:
	bash .ci/run

install: all
	install -d $(to)/include $(to)/lib/pkgconfig $(to)/bin
	install -m 644 include/pomthija.h include/pomthija_sheet.h $(to)/include/
	install -m 644 build/libpomthija.a $(to)/lib/
	install -m 755 build/libpomthija.so $(to)/lib/libpomthija.so.$(VERSION)
	ln -sf libpomthija.so.$(VERSION) $(to)/lib/libpomthija.so
	install -m 755 build/listing $(to)/bin/pomthija-listing
	if [ -f build/pomthija ]; then install -m 755 build/pomthija $(to)/bin/; fi
	printf '%s\n' 'prefix=$(PREFIX)' 'Name: pomthija' 'Description: verdicts on conditional branches of x86-64 code' \
	  'Version: $(VERSION)' 'Cflags: -I$${prefix}/include' 'Libs: -L$${prefix}/lib -lpomthija' > $(to)/lib/pkgconfig/pomthija.pc

clean:
	rm -rf build
