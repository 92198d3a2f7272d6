# Bumbleturf's doors for make, so that a mesher's build need not know `rt`.
#   make                         all that `make install` needs: library, program, shared
#   make library                 proves the kernel and writes the archive
#   make program                 proves and links the programs holes and parts
#   make shared                  a shared library of the archive
#   make dist                    a tar file for machines without `rt`, the same bytes from every clone
#   make test | bench | clean
#   make install | uninstall     PREFIX=/usr/local LIBDIR=$PREFIX/lib DESTDIR=
# Installing copies what is built and builds nothing: it may run as another user, on a machine without `rt`. What a failed target made
# before is taken away, so that no install takes an old library beside a new header.

PREFIX = /usr/local
LIBDIR = $(PREFIX)/lib
DESTDIR =
export PREFIX LIBDIR DESTDIR

VERSION := $(shell sed -n 's/^.define BT_VERSION "\(.*\)"$$/\1/p' include/bumbleturf.h)
# What `rt` makes lies in the crates' own out/, and `rt ci` takes it away; what is meant to stay is copied out of there.
MADE = crates/kernel/out/libkernel.a
ARCHIVE = target/staticlib/libkernel.a
PROGRAMS = holes parts
BINARIES = $(PROGRAMS:%=target/bin/%)
# While the version begins with 0, each second number is a face of its own.
SONAME = libbumbleturf.so.$(basename $(VERSION))
SHARED = target/shared/$(SONAME)
DIST = bumbleturf-$(VERSION)-x86_64-linux

.PHONY: all library program shared dist test bench install uninstall clean
# A second prover only waits for the first, in the crates that both stand on.
.NOTPARALLEL:
# Each recipe is one script that stops at the first failure.
.ONESHELL:
.SHELLFLAGS = -euc

# Takes away what the words name and stops, where there is no `rt`.
define rt_or_without
command -v rt >/dev/null 2>&1 || {
	rm -f $(1)
	echo 'make $@: there is no `rt` here; it is the command of the Rattle kit, and kit.txt names the version that this repository is proved with' >&2
	exit 1
}
endef

# Says why and stops, before a file is touched, where the places cannot be meant.
define places
for place in "$$PREFIX" "$$LIBDIR"; do
	case $$place in
	/*) ;;
	*) echo "make $@: PREFIX and LIBDIR must start with /, for the pkg-config file names them; not so: '$$place'" >&2; exit 1 ;;
	esac
	if [ -n "$$(printf '%s' "$$place" | LC_ALL=C tr -d 'A-Za-z0-9_./+~@%:,=\200-\377-')" ]; then
		echo "make $@: a space, a quote or another sign that a shell takes apart does not go through pkg-config: '$$place'" >&2
		exit 1
	fi
done
if [ -e "$$DESTDIR$$PREFIX/crates.txt" ] || [ "$$DESTDIR$$PREFIX/include/bumbleturf.h" -ef include/bumbleturf.h ]; then
	echo "make $@: PREFIX is a checkout, whose own header an uninstall would take away: '$$DESTDIR$$PREFIX'" >&2
	exit 1
fi
endef

# Says what is missing and stops, where not all is built.
define all_built
for file in $(ARCHIVE) $(SHARED) $(BINARIES); do
	[ -f "$$file" ] || { echo "make $@: $$file is not built; run \`make\` first" >&2; exit 1; }
done
endef

# copied LIB INCLUDE BIN: into these folders; the pkg-config file gets $$prefix and $$libdir. It names the archive by its path: beside a
# shared library -lbumbleturf would take that one, and the program would have to find it at each start.
define copied
install -d $(1)/pkgconfig $(2) $(3)
install -m 644 $(ARCHIVE) $(1)/libbumbleturf.a
install -m 755 $(SHARED) $(1)/$(SONAME)
ln -sf $(SONAME) $(1)/libbumbleturf.so
install -m 644 include/bumbleturf.h $(2)/bumbleturf.h
install -m 755 $(BINARIES) $(3)/
printf '%s\n' "prefix=$$prefix" "libdir=$$libdir" 'includedir=$${prefix}/include' '' 'Name: bumbleturf' \
	'Description: A proved kernel for sketches of parts' 'Version: $(VERSION)' \
	'Libs: $${libdir}/libbumbleturf.a' 'Cflags: -I$${includedir}' >$(1)/pkgconfig/bumbleturf.pc
chmod 644 $(1)/pkgconfig/bumbleturf.pc
endef

all: library program shared

library:
	@$(call rt_or_without,$(ARCHIVE))
	rm -rf $(ARCHIVE) $(MADE) target/shared
	( cd crates/kernel && rt lib )
	[ -f $(MADE) ] || { echo 'make $@: rt has left no archive' >&2; exit 1; }
	mkdir -p $(dir $(ARCHIVE))
	install -m 644 $(MADE) $(ARCHIVE)

# `rt run` proves, links and then runs the program: here on no input, and what it prints of that is for nobody.
program:
	@$(call rt_or_without,$(BINARIES))
	rm -f $(BINARIES)
	for name in $(PROGRAMS); do ( cd "crates/$$name" && rt run </dev/null >/dev/null ); done
	for name in $(PROGRAMS); do
		[ -f "crates/$$name/out/$$name" ] || { echo "make $@: rt has left no program $$name" >&2; exit 1; }
	done
	mkdir -p target/bin
	for name in $(PROGRAMS); do install -m 755 "crates/$$name/out/$$name" "target/bin/$$name"; done

# No start files and no build number: the bytes follow from the archive and the linker.
shared: library
	@rm -rf target/shared && mkdir -p target/shared
	$(CC) -shared -nostartfiles -Wl,--whole-archive $(ARCHIVE) -Wl,--no-whole-archive -Wl,-soname,$(SONAME) -Wl,--build-id=none \
		-Wl,-z,defs -Wl,-z,noexecstack -Wl,-s -o $(SHARED)

# The folder that goes into the tar file is made outside the checkout: there is a link in it, and `rt ci` refuses a checkout with one.
dist: all
	@$(all_built)
	[ "$$(rt version)" = "$$(cat kit.txt)" ] || { echo 'make $@: rt is not of the version that kit.txt names' >&2; exit 1; }
	rm -rf target/dist
	mkdir -p target/dist
	place=$$(mktemp -d)
	trap 'rm -rf "$$place"' EXIT
	prefix='$${pcfiledir}/../..' libdir='$${prefix}/lib'
	to=$$place/$(DIST)
	$(call copied,"$$to/lib","$$to/include","$$to/bin")
	install -m 644 kit.txt "$$to/"
	( cd "$$to" && find . -type f | LC_ALL=C sort | xargs sha256sum >../SHA256SUMS && mv ../SHA256SUMS . )
	tar --sort=name --format=ustar --mtime=@0 --owner=0 --group=0 --numeric-owner --mode=u=rwX,go=rX -C "$$place" -cf "$$to.tar" $(DIST)
	install -m 644 "$$to.tar" target/dist/
	echo target/dist/$(DIST).tar

test:
	@$(call rt_or_without,)
	bash .ci/run

bench:
	@case $${BUMBLETURF_LIB:-/} in
	/*) ;;
	*) export BUMBLETURF_LIB="$$PWD/$$BUMBLETURF_LIB" ;;
	esac
	bash bench/run

install:
	@$(places)
	$(all_built)
	prefix=$$PREFIX
	case $$LIBDIR in
	"$$PREFIX"/*) libdir="\$${prefix}$${LIBDIR#"$$PREFIX"}" ;;
	*) libdir=$$LIBDIR ;;
	esac
	$(call copied,"$$DESTDIR$$LIBDIR","$$DESTDIR$$PREFIX/include","$$DESTDIR$$PREFIX/bin")
	echo "installed in $$DESTDIR$$PREFIX"

uninstall:
	@$(places)
	for name in libbumbleturf.a $(SONAME) libbumbleturf.so pkgconfig/bumbleturf.pc; do rm -f "$$DESTDIR$$LIBDIR/$$name"; done
	rm -f "$$DESTDIR$$PREFIX/include/bumbleturf.h"
	for name in $(PROGRAMS); do rm -f "$$DESTDIR$$PREFIX/bin/$$name"; done

clean:
	rm -rf target rust/target second/target crates/*/out
