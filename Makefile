# cgfile: `make` proves and builds the program and the C library and shows the program's first run; `make check` runs all tests;
# `make quick` builds the program without a proof, for trying alone; `make install` installs the proved program, its manual page,
# the completions of three shells, and the C library, below $(DESTDIR)$(PREFIX); the C library in $(DESTDIR)$(LIBDIR) and
# $(DESTDIR)$(INCLUDEDIR).

PREFIX ?= /usr/local
LIBDIR ?= $(PREFIX)/lib
INCLUDEDIR ?= $(PREFIX)/include
BINDIR = $(DESTDIR)$(PREFIX)/bin
SHAREDIR = $(DESTDIR)$(PREFIX)/share

.PHONY: all check quick quoted version install uninstall clean

all: build/cgfile library
	printf '10000\n' | build/cgfile file cpu.weight

# How many checks at once.
AT_ONCE := $(or $(shell scripts/at_once 2> /dev/null),1)

# The libraries: each is proved where it wasn't proved of this text here, once those are that it stands on, and beside others.
# Then what stands on them.
LIBRARIES = $(filter-out cgfile cg_rows cg_examples, $(shell sed -n 's/^\([a-z_]*\):.*/\1/p' crates.txt))
below = $(filter $(LIBRARIES), $(shell sed -n 's/^$(1)://p' crates.txt))
MAKEFLAGS += --jobs=$(AT_ONCE)

define library
.PHONY: $(1)
$(1): $(call below,$(1)) | version
	scripts/library $(1) $(LIBRARIES)
endef
$(foreach it,$(LIBRARIES),$(eval $(call library,$(it))))

build/cgfile: crates.txt $(shell find crates -path '*/out' -prune -o -type f -print) | $(LIBRARIES) version
	cd crates/cgfile && rt run < stdin -- file cpu.weight
	mkdir -p build
	install -m 755 crates/cgfile/out/cgfile build/cgfile

# The kit that proves has the logic that `--version` and the README name. Another kit of that logic may judge by other tactics and
# another standard library, so that is said: what is claimed rests then on a run of `make check` with it.
version:
	@for file in crates/cg_program/src/version.rt README.md; do grep -qF "$$(rt version | cut -d ' ' -f 2-)" $$file \
	    || { echo "$$file names another logic than $$(rt version)" >&2; exit 1; }; done
	@grep -qF "$$(rt version)" README.md || echo "note: the README names another kit of the same logic than $$(rt version)" >&2

# What it leaves stands apart from build/cgfile, and no other target takes it.
quick:
	scripts/quick
	printf '10000\n' | build/quick/cgfile file cpu.weight

# The code that README shows is that of crates/cg_examples.
quoted:
	scripts/quoted

# Each check by one process, as every further one reads anew what the crate stands on; and as many checks as there is room for,
# where `rt ci` else reckons with more memory than a check has been seen to take.
check: version quoted
	RT_JOBS=$(AT_ONCE) rt ci

install: build/cgfile install-library
	install -D -m 755 build/cgfile $(BINDIR)/cgfile
	install -D -m 644 man/cgfile.1 $(SHAREDIR)/man/man1/cgfile.1
	install -D -m 644 completions/cgfile.bash $(SHAREDIR)/bash-completion/completions/cgfile
	install -D -m 644 completions/_cgfile $(SHAREDIR)/zsh/site-functions/_cgfile
	install -D -m 644 completions/cgfile.fish $(SHAREDIR)/fish/vendor_completions.d/cgfile.fish

uninstall: uninstall-library
	rm -f $(BINDIR)/cgfile $(SHAREDIR)/man/man1/cgfile.1 $(SHAREDIR)/bash-completion/completions/cgfile \
	    $(SHAREDIR)/zsh/site-functions/_cgfile $(SHAREDIR)/fish/vendor_completions.d/cgfile.fish

clean:
	rm -rf build

# The C library: its calls as an archive and as a shared object, of which each shows the calls of include/cgfile.h alone, and
# what pkg-config tells of them. The kit's allocator, over the C library's malloc, realloc and free, is in both.
LIBRARY_VERSION = 0.1.0
SONAME = libcgfile.so.0

.PHONY: library check-library install-library uninstall-library build/cgfile.pc

library: build/libcgfile.a build/libcgfile.so build/cgfile.pc

build/cgfile.o: crates.txt $(shell find crates -path '*/out' -prune -o -type f -print) \
    | $(filter $(LIBRARIES), $(shell sed -n 's/^cg_c staticlib://p' crates.txt)) version
	cd crates/cg_c && rt lib
	mkdir -p build
	ld -r -o $@ --whole-archive crates/cg_c/out/libcg_c.a --no-whole-archive "$$(dirname "$$(rt doc)")/c/liblibc_c.a"
	objcopy --wildcard --keep-global-symbol='cgfile_*' $@

build/libcgfile.a: build/cgfile.o
	rm -f $@
	ar rcs $@ $<

build/libcgfile.so: build/cgfile.o
	$(CC) -shared -o $@ -Wl,-soname,$(SONAME) -Wl,--no-undefined -Wl,-z,text -Wl,-z,relro,-z,now $<

build/cgfile.pc:
	mkdir -p build
	printf '%s\n' 'prefix=$(PREFIX)' 'libdir=$(patsubst $(PREFIX)/%,$${prefix}/%,$(LIBDIR))' \
	    'includedir=$(patsubst $(PREFIX)/%,$${prefix}/%,$(INCLUDEDIR))' '' 'Name: cgfile' \
	    'Description: reads the interface files of Linux control groups exactly' 'Version: $(LIBRARY_VERSION)' \
	    'Libs: -L$${libdir} -lcgfile' 'Cflags: -I$${includedir}' > $@

# The library is tried as it is installed, from C, Rust and Python.
check-library: library
	tests/library

install-library: library
	install -D -m 644 include/cgfile.h $(DESTDIR)$(INCLUDEDIR)/cgfile.h
	install -D -m 644 build/libcgfile.a $(DESTDIR)$(LIBDIR)/libcgfile.a
	install -D -m 755 build/libcgfile.so $(DESTDIR)$(LIBDIR)/libcgfile.so.$(LIBRARY_VERSION)
	ln -sf libcgfile.so.$(LIBRARY_VERSION) $(DESTDIR)$(LIBDIR)/$(SONAME)
	ln -sf $(SONAME) $(DESTDIR)$(LIBDIR)/libcgfile.so
	install -D -m 644 build/cgfile.pc $(DESTDIR)$(LIBDIR)/pkgconfig/cgfile.pc

uninstall-library:
	rm -f $(DESTDIR)$(INCLUDEDIR)/cgfile.h $(DESTDIR)$(LIBDIR)/libcgfile.a $(DESTDIR)$(LIBDIR)/libcgfile.so $(DESTDIR)$(LIBDIR)/$(SONAME) \
	    $(DESTDIR)$(LIBDIR)/libcgfile.so.$(LIBRARY_VERSION) $(DESTDIR)$(LIBDIR)/pkgconfig/cgfile.pc
