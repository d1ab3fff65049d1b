# `make help` lists the targets. `make` uses all processors, `make -j2` two.
.DEFAULT_GOAL := all
# what runs side by side are crates, and scripts/prove runs them
.NOTPARALLEL:
.DELETE_ON_ERROR:

PREFIX ?= /usr/local
# a shell that leaves ~ as it is typed means the same
override PREFIX := $(patsubst ~/%,$(HOME)/%,$(PREFIX))
SHARE = $(PREFIX)/share
# the command rt, which proves. Without it cargo builds the program, and nothing is proved
KIT := $(shell command -v rt)
MEGABYTES ?= 50
ROUNDS ?= 5
PEER ?= $(if $(shell command -v rustc),bin/plain_show)
PEERS := $(PEER) $(if $(shell command -v rustc),bin/plain_plays)
BUILT := crates/fibs/out/fibs
CRATES := $(shell sed -nE 's/^([a-z0-9_]+)( [^:]*)?:.*/\1/p' crates.txt)

# The library for C. A change after which a caller has to be built again makes the second number of its soname one more.
VERSION := $(shell sed -n 's/^.define FIBS_VERSION "\(.*\)"$$/\1/p' include/fibs.h)
SONAME := libfibs.so.$(basename $(VERSION))
OBJCOPY ?= objcopy
# what says that the library in lib/ is built by cargo
OF_CARGO := out/library_of_cargo
C_ARCHIVE := crates/fibs_c/out/libfibs_c.a
# what is installed and packed as it is: the program, and the folder of the library
PROGRAM = bin/fibs
LIBRARY = lib
# the machine that packages are for, if not this one (it is no variable of the environment)
TARGET =
# the heap of the toolchain's library, over malloc, realloc and free
KIT_ARCHIVE = $(dir $(shell rt doc))c/liblibc_c.a

# what fibs-page serves, of js/
PAGE := $(addprefix page/,index.html page.css $(notdir $(wildcard js/page/*.js))) index.js dist/module.js

.PHONY: all quickly built lib page test edits try quick definitions fmt dist install install-program install-surface \
	install-page install-lib install-program-files install-lib-files uninstall dist-files bench bench-more clean help \
	$(CRATES)

# what stands beside the program
BESIDE := bin/fibs-play bin/fibs-mat bin/fibs-page

all: ## proves and builds the program: bin/fibs, with bin/fibs-play beside it; without the command rt as `make quickly`
ifeq ($(KIT),)
	@$(MAKE) --no-print-directory quickly
else
	@scripts/tools build
	@scripts/prove fibs
	@mkdir -p bin
	@cmp -s $(BUILT) bin/fibs || install -m 755 $(BUILT) bin/fibs
	@$(MAKE) --no-print-directory -s $(BESIDE)
endif

quickly: ## builds the program by cargo, and proves nothing: bin/fibs, with bin/fibs-play beside it
	@scripts/quickly
	@$(MAKE) --no-print-directory -s $(BESIDE)

$(BESIDE): bin/%: scripts/%
	@mkdir -p bin
	install -m 755 $< $@

# the program as it was built, proved or not; if there is none it is built
built:
	@[ -x bin/fibs ] || $(MAKE) --no-print-directory all

lib: ## proves and builds the library for C: lib/libfibs.a, lib/libfibs.so and lib/fibs.pc. Without rt cargo builds it
ifneq ($(KIT),)
	@scripts/tools lib
	@scripts/prove fibs_c
	@if [ -e $(OF_CARGO) ]; then rm -f lib/libfibs.* $(OF_CARGO); fi
	@$(MAKE) --no-print-directory lib/libfibs.a lib/libfibs.so lib/fibs.pc python/fibs/libfibs.so
else
	@$(MAKE) --no-print-directory $(OF_CARGO)
	@$(MAKE) --no-print-directory lib/fibs.pc python/fibs/libfibs.so
endif

page: bin/fibs-page ## builds the page that fibs-page serves, by cargo
	@js/build

test: ## passes all tests: the proofs, the edits that must fail, the tests of what was built; without rt what needs none
ifeq ($(KIT),)
	@tests/unproved
else
	@scripts/tools test
	@tests/run
endif

edits: ## tries the edits that the prover must refuse, over what make and make lib built
	@tests/edits

try: ## the tests in Rust, by cargo: a first look at a change. TEST=WORD: those with WORD in their names
	@scripts/tools try
	@tests/try $(TEST)

quick: ## all tests that need no proof, on what make and make lib built, the quickest first
	@tests/quick

$(CRATES): ## (the name of a crate) proves it and what it uses, and keeps the proofs: `rt check` begins with them
	@KEEP=$${KEEP:-1} scripts/prove $@

definitions: ## lists the definitions that contracts cite, by their comments, in out/definitions
	@scripts/definitions

fmt: ## lays out the files of each crate
	@for crate in $(CRATES); do (cd crates/$$crate && rt fmt) || exit 1; done

dist: ## makes dist/: packages for machines without a prover. TARGET=aarch64: for ARM, of the text without its proofs
ifneq ($(TARGET),)
	@scripts/tools erased
	@scripts/erased $(TARGET) out/$(TARGET)
	@$(MAKE) --no-print-directory dist-files PROGRAM=out/$(TARGET)/fibs LIBRARY=out/$(TARGET)
else
	@scripts/tools dist
	@$(MAKE) --no-print-directory all lib
	@$(MAKE) --no-print-directory dist-files
endif

# packs what is built as it is
dist-files:
	@VERSION=$(VERSION) SONAME=$(SONAME) PROGRAM=$(PROGRAM) LIBRARY=$(LIBRARY) TARGET=$(TARGET) scripts/dist

ifeq ($(KIT),)
$(OF_CARGO): $(shell find crates/*/src rust/build.rs rust/Cargo.toml rust/build rust/src rust/c/src include lib/texts.c \
		lib/fibs.map scripts/erased_library -type f)
	@scripts/quickly library
	@mkdir -p $(@D) && touch $@
else
# one archive, which needs the C library alone and shows only fibs_*
lib/libfibs.a: $(C_ARCHIVE) lib/texts.c include/fibs.h
	rm -rf lib/objects $@ && mkdir -p lib/objects
	cd lib/objects && ar x ../../$(C_ARCHIVE) && ar x $(KIT_ARCHIVE) heap.pic.o
	$(CC) -O2 -fPIC -Iinclude -c -o lib/objects/texts.o lib/texts.c
	$(LD) -r -o lib/objects/all lib/objects/*.o
	$(OBJCOPY) --wildcard --keep-global-symbol='fibs_*' lib/objects/all lib/objects/fibs.o
	ar rcsD $@ lib/objects/fibs.o
	rm -rf lib/objects

lib/libfibs.so: lib/libfibs.a lib/fibs.map
	$(CC) -shared -o lib/$(SONAME) -Wl,-soname,$(SONAME) -Wl,--version-script=lib/fibs.map -Wl,--gc-sections -Wl,-z,defs \
		-Wl,--whole-archive lib/libfibs.a -Wl,--no-whole-archive
	install -m 755 lib/$(SONAME) $@
endif

# beside the package, which so finds it where it lies; pip before 21.3 copies no more than python/ to build it
python/fibs/libfibs.so: lib/libfibs.so
	install -m 644 $< $@

lib/fibs.pc: lib/fibs.pc.in Makefile
	sed -e 's|@PREFIX@|$(PREFIX)|; s|@VERSION@|$(VERSION)|' $< > $@

install: install-program ## copies what was built to $(PREFIX): the program, proved or not, the library for C, the page
	@[ ! -f lib/libfibs.so ] || $(MAKE) --no-print-directory -s install-lib-files
	@[ ! -f js/dist/module.js ] || $(MAKE) --no-print-directory -s install-page

install-program: built install-program-files ## the program alone, with fibs-play, its page and the completions
	@echo "$(DESTDIR)$(PREFIX)/bin: $$(bin/fibs --version)"
	@case :$$PATH: in \
		*:$(PREFIX)/bin:*) ;; \
		*) echo 'it is not in your PATH: type $(PREFIX)/bin/fibs-play, or first PATH=$(PREFIX)/bin:$$PATH' ;; \
	esac

# the program as it is
install-program-files: install-surface
	@install -m 755 $(PROGRAM) $(DESTDIR)$(PREFIX)/bin/fibs

# what is built of nothing
install-surface:
	@install -d $(DESTDIR)$(PREFIX)/bin $(DESTDIR)$(SHARE)/man/man1 $(DESTDIR)$(SHARE)/fibs \
		$(DESTDIR)$(SHARE)/bash-completion/completions $(DESTDIR)$(SHARE)/zsh/site-functions \
		$(DESTDIR)$(SHARE)/fish/vendor_completions.d
	@install -m 755 scripts/fibs-play scripts/fibs-mat $(DESTDIR)$(PREFIX)/bin
	@install -m 644 docs/fibs.1 $(DESTDIR)$(SHARE)/man/man1/fibs.1
	@ln -sf fibs.1 $(DESTDIR)$(SHARE)/man/man1/fibs-play.1
	@ln -sf fibs.1 $(DESTDIR)$(SHARE)/man/man1/fibs-mat.1
	@install -m 644 completions/typed $(DESTDIR)$(SHARE)/fibs/typed
	@install -m 755 scripts/keys.pl $(DESTDIR)$(SHARE)/fibs/keys.pl
	@install -m 644 python/fibs/match_files.py $(DESTDIR)$(SHARE)/fibs/match_files.py
	@install -m 644 scripts/inputrc $(DESTDIR)$(SHARE)/fibs/inputrc
	@install -m 644 examples/config $(DESTDIR)$(SHARE)/fibs/config
	@install -m 644 completions/fibs.bash $(DESTDIR)$(SHARE)/bash-completion/completions/fibs
	@ln -sf fibs $(DESTDIR)$(SHARE)/bash-completion/completions/fibs-play
	@install -m 644 completions/_fibs $(DESTDIR)$(SHARE)/zsh/site-functions/_fibs
	@install -m 644 completions/fibs.fish $(DESTDIR)$(SHARE)/fish/vendor_completions.d/fibs.fish
	@ln -sf fibs.fish $(DESTDIR)$(SHARE)/fish/vendor_completions.d/fibs-play.fish

# the page, and what serves it
install-page:
	@install -d $(DESTDIR)$(PREFIX)/bin $(DESTDIR)$(SHARE)/fibs/page/page $(DESTDIR)$(SHARE)/fibs/page/dist
	@install -m 755 scripts/fibs-page $(DESTDIR)$(PREFIX)/bin
	@for file in $(PAGE); do install -m 644 js/$$file $(DESTDIR)$(SHARE)/fibs/page/$$file || exit 1; done

# all that the rules above put there, and the folders that are of this alone
INSTALLED = bin/fibs bin/fibs-play bin/fibs-mat bin/fibs-page share/man/man1/fibs.1 share/man/man1/fibs-play.1 \
	share/man/man1/fibs-mat.1 share/fibs/typed share/fibs/keys.pl share/fibs/inputrc share/fibs/config \
	share/fibs/match_files.py share/bash-completion/completions/fibs \
	share/bash-completion/completions/fibs-play share/zsh/site-functions/_fibs \
	share/fish/vendor_completions.d/fibs.fish share/fish/vendor_completions.d/fibs-play.fish \
	include/fibs.h lib/libfibs.a lib/libfibs.so lib/$(SONAME) lib/pkgconfig/fibs.pc
uninstall: ## removes from $(PREFIX) what `make install` has put there
	@cd $(DESTDIR)$(PREFIX)/ && rm -f $(INSTALLED) && rm -rf share/fibs share/doc/fibs lib/cmake/fibs

install-lib: lib install-lib-files ## the library for C alone, with its header

# the library as it is
install-lib-files:
	install -d $(DESTDIR)$(PREFIX)/include $(DESTDIR)$(PREFIX)/lib/pkgconfig $(DESTDIR)$(PREFIX)/lib/cmake/fibs \
		$(DESTDIR)$(SHARE)/doc/fibs
	install -m 644 include/fibs.h $(DESTDIR)$(PREFIX)/include/fibs.h
	install -m 644 $(LIBRARY)/libfibs.a $(DESTDIR)$(PREFIX)/lib/libfibs.a
	install -m 755 $(LIBRARY)/libfibs.so $(DESTDIR)$(PREFIX)/lib/$(SONAME)
	ln -sf $(SONAME) $(DESTDIR)$(PREFIX)/lib/libfibs.so
	sed -e 's|@PREFIX@|$(PREFIX)|; s|@VERSION@|$(VERSION)|' lib/fibs.pc.in > $(DESTDIR)$(PREFIX)/lib/pkgconfig/fibs.pc
	sed -e 's|@VERSION@|$(VERSION)|; s|@SONAME@|$(SONAME)|' lib/fibs-config.cmake.in \
		> $(DESTDIR)$(PREFIX)/lib/cmake/fibs/fibs-config.cmake
	sed -e 's|@VERSION@|$(VERSION)|' lib/fibs-config-version.cmake.in \
		> $(DESTDIR)$(PREFIX)/lib/cmake/fibs/fibs-config-version.cmake
	install -m 644 docs/C.md docs/FORMATS.md CHANGELOG.md examples/bot.c $(DESTDIR)$(SHARE)/doc/fibs

bin/plain_%: bench/plain_%.rs
	mkdir -p bin
	rustc -O -o $@ $<

bin/plain_plays: bench/plain_rules.rs

bench: all $(PEERS) ## measures: one table of goals and figures, beside other programs
	scripts/prove fibs_bench
	bench/table bin/fibs crates/fibs_bench/out/fibs_bench "$(PEER)" $(ROUNDS)

bench-more: all lib $(PEER) ## measures each part on its own, the libraries for C and Python too
	scripts/prove fibs_bench
	PEER=$(PEER) bench/show bin/fibs $(MEGABYTES) $(ROUNDS)
	bench/loops crates/fibs_bench/out/fibs_bench $(MEGABYTES) $(ROUNDS)
	bench/c_calls crates/fibs_bench/out/fibs_bench $(MEGABYTES) $(ROUNDS)
	bench/replay bin/fibs $(ROUNDS)
	bench/loop bin/fibs $(ROUNDS)
	bench/latency bin/fibs
	bench/seat bin/fibs

clean: ## removes what the other targets made
	rm -rf bin dist out lib/*.a lib/*.so* lib/fibs.pc python/fibs/libfibs.so crates/*/out js/dist js/wasm/target

help: ## lists the targets
	@awk -F ': .*## ' '/^[a-z$$][^:]*:.*## / { name = $$1; sub(/^\$$\(CRATES\)/, "CRATE", name); printf "make %-16s %s\n", name, $$2 }' Makefile

.DEFAULT:
	@echo "make: there is no target $@; make help lists them" >&2; exit 2
