# The commands of the README. Needs the Rattle kit (rt on the PATH); `make examples` needs a C compiler, `make check` also gcc, g++ and cargo.
PREFIX = /usr/local
VERSION = 0.7.0

archive = crates/honeygimlet/out/libhoneygimlet.a
includedir = $(DESTDIR)$(PREFIX)/include
libdir = $(DESTDIR)$(PREFIX)/lib

# the C library, proved and built, and the program loglist (crates/loglist/out/loglist)
all: library loglist

# rt lib in crates/honeygimlet, unless nothing changed since
library:
	.ci/archive

loglist:
	.ci/program loglist

# the C examples, built into target/ and run
examples: library
	mkdir -p target
	for name in firmware logger; do \
	    $(CC) -std=c11 -Wall -Wextra -Iinclude examples/$$name.c $(archive) -o target/$$name && target/$$name || exit 1; \
	done

# header, archive and pkg-config file
install: library
	install -d "$(includedir)" "$(libdir)/pkgconfig"
	install -m 644 include/honeygimlet.h "$(includedir)/honeygimlet.h"
	install -m 644 $(archive) "$(libdir)/libhoneygimlet.a"
	printf '%s\n' 'prefix=$(PREFIX)' 'includedir=$${prefix}/include' 'libdir=$${prefix}/lib' '' \
	    'Name: honeygimlet' 'Description: 29-bit CAN protocol of Megasquirt controllers, bridge, MLG and FRD logs' 'Version: $(VERSION)' \
	    'Cflags: -I$${includedir}' 'Libs: -L$${libdir} -lhoneygimlet' >"$(libdir)/pkgconfig/honeygimlet.pc"

# everything that is checked
check:
	.ci/run

clean:
	rm -rf target crates/*/out

.NOTPARALLEL:
.PHONY: all library loglist examples install check clean
