PREFIX ?= /usr/local
LIB = target/lib
QUAY = target/bin/quay

# what `make run` reads: a file, or - for the terminal or a pipe
INPUT ?= examples/handover.txt

# where `make install` puts things, and what `make uninstall` takes away
ROOT = $(DESTDIR)$(PREFIX)
MAN = share/man/man1
INSTALLED = bin/quay bin/quay-explain lib/libquay.a lib/pkgconfig/quay.pc include/quay.h $(MAN)/quay.1 $(MAN)/quay-explain.1

.PHONY: run test program lib probe explain bench install uninstall

run: program
	@cat $(INPUT) | $(QUAY)

test:
	@scripts/test

# the program, in target/bin
program:
	@scripts/prove quay

# the archive and the header for a server in C, in target/lib
lib:
	@scripts/prove capi
	@mkdir -p $(LIB)
	@cp target/staticlib/libcapi.a $(LIB)/libquay.a
	@cp include/quay.h $(LIB)/quay.h
	@echo '$(LIB) has libquay.a and quay.h'

# the archive of the calls to which no door leads, for the tests from outside alone, in target/staticlib
probe:
	@scripts/prove probe

# the program that shows why a page stands where it stands, in target/bin; without cargo it is left out
explain:
	@mkdir -p target/bin
	@rm -f target/bin/quay-explain
	@if command -v cargo >/dev/null; then \
	    (cd checker && cargo build --offline --quiet --release --target-dir target --bin quay-explain) && \
	    cp checker/target/release/quay-explain target/bin/quay-explain; \
	else \
	    echo 'quay-explain is left out: it is built by cargo, which is not here' >&2; \
	fi

# the C entries and the program beside the checker's own, in one run
bench: lib probe program
	@cd checker && cargo build --offline --quiet --release --bin lines
	@cd checker && QUAY_LIB=../$(LIB) QUAY_PROBE=../target/staticlib QUAY_PROGRAM=../$(QUAY) cargo run --offline --quiet --release --features box --bin bench | tee ../docs/PERFORMANCE.md

install: explain lib program
	install -d $(ROOT)/bin $(ROOT)/lib/pkgconfig $(ROOT)/include $(ROOT)/$(MAN)
	install -m 755 $(QUAY) $(ROOT)/bin/quay
	install -m 644 quay.1 $(ROOT)/$(MAN)/quay.1
	install -m 644 $(LIB)/libquay.a $(ROOT)/lib/libquay.a
	install -m 644 include/quay.h $(ROOT)/include/quay.h
	version=$$(sed -n 's/^#define QUAY_VERSION "\(.*\)"/\1/p' include/quay.h) && \
	    sed -e 's|@PREFIX@|$(PREFIX)|' -e "s|@VERSION@|$$version|" quay.pc.in >$(ROOT)/lib/pkgconfig/quay.pc
	if [ -f target/bin/quay-explain ]; then \
	    install -m 755 target/bin/quay-explain $(ROOT)/bin/quay-explain && \
	    install -m 644 quay-explain.1 $(ROOT)/$(MAN)/quay-explain.1; \
	fi

uninstall:
	rm -f $(addprefix $(ROOT)/,$(INSTALLED))
