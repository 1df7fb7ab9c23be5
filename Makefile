# For a machine without the Rattle kit: all is made from dist/, by POSIX make and gcc or clang.
#
#     make                    build/: libquendaric.a, libquendaric.so, and the programs in tools/
#     make check              tests them (tests/without-kit); writes below target/ too
#     make install            header, libraries, quendaric.pc and programs: DESTDIR and PREFIX say where
#     make clean              removes build/
#
# What was proved is shown by the kit alone: .ci/run.
.POSIX:
.PHONY: all programs check install clean

CC = cc
AR = ar
CFLAGS = -O2
LDFLAGS =
PREFIX = /usr/local
DESTDIR =

# of the version in dist/quendaric.h
MAJOR = 3

library = build/libquendaric.a
soname = libquendaric.so.$(MAJOR)

all: $(library) build/libquendaric.so programs

build/quendaric.o: dist/quendaric.c dist/quendaric.h
	mkdir -p build
	$(CC) -std=c99 $(CFLAGS) -fPIC -ffunction-sections -c dist/quendaric.c -o $@

$(library): build/quendaric.o
	rm -f $@
	$(AR) rcs $@ build/quendaric.o

# a copy: the kit takes no checkout with a link in it
build/libquendaric.so: build/quendaric.o
	$(CC) $(CFLAGS) $(LDFLAGS) -shared -Wl,-soname,$(soname) build/quendaric.o -o build/$(soname)
	cp build/$(soname) $@

# each tool that is older than a file of which it may be made
programs: $(library)
	@for source in tools/*.c; do \
	    program=build/$$(basename "$$source" .c); \
	    [ -n "$$(find $(library) tools examples -newer "$$program" 2>&1)" ] || continue; \
	    (set -x; $(CC) -std=c99 $(CFLAGS) $(LDFLAGS) -Idist "$$source" $(library) -o "$$program") || exit 1; \
	done

check: all
	CC="$(CC)" CFLAGS="$(CFLAGS)" tests/without-kit

# a tool's name alone is too common for a folder of all programs
install: all
	mkdir -p $(DESTDIR)$(PREFIX)/include $(DESTDIR)$(PREFIX)/lib/pkgconfig $(DESTDIR)$(PREFIX)/bin
	cp dist/quendaric.h $(DESTDIR)$(PREFIX)/include
	cp $(library) build/$(soname) $(DESTDIR)$(PREFIX)/lib
	ln -sf $(soname) $(DESTDIR)$(PREFIX)/lib/libquendaric.so
	for source in tools/*.c; do \
	    name=$$(basename "$$source" .c); \
	    cp "build/$$name" "$(DESTDIR)$(PREFIX)/bin/quendaric-$$name" || exit 1; \
	done
	version=$$(sed -n 's/^#define QUENDARIC_VERSION "\(.*\)"$$/\1/p' dist/quendaric.h); \
	printf '%s\n' 'prefix=$(PREFIX)' 'Name: quendaric' \
	    'Description: radix-4 SRT division through checked tables of quotient digits' "Version: $$version" \
	    'Cflags: -I$${prefix}/include' 'Libs: -L$${prefix}/lib -lquendaric' >$(DESTDIR)$(PREFIX)/lib/pkgconfig/quendaric.pc

clean:
	rm -rf build
