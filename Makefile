# Installs the programs and the library for C, and packs the sources.
#
#     make install PREFIX=/usr/local     programs, rachonpas-cc, manual pages, completions, header, both libraries, a file for pkg-config
#     make install-programs, make install-library     a part of it
#     make dist                          rachonpas-VERSION.tar.gz, which builds with the Rattle kit alone
#     make check                         the gate, .ci/run
#     make help                          this text, as make alone
#
# Programs that `rt ci` or `rt run` has proved and built from the sources that stand here are installed; else an unproved build of them, which takes
# a minute or a few for each. PREFIX/share/doc/rachonpas/BUILT says which is which, and an unproved program says so whenever it runs. The library
# is of proved code alone: `make install` leaves it out where `make -C bindings/c` hasn't built it, and says so. LIBRARY=FILE names another.
PREFIX ?= /usr/local
DESTDIR ?=
VERSION := $(shell cat VERSION)
PROGRAMS := plir plir_opt plir_mlir plir_llvm
AT := $(DESTDIR)$(PREFIX)
LIBEXEC := $(AT)/libexec/rachonpas
DOC := $(AT)/share/doc/rachonpas

all help:
	@sed -n 's/^# \{0,1\}//p' Makefile

install: install-programs
	@if [ -n "$(LIBRARY)" ] || [ -e crates/plir_c/out/libplir_c.a ]; then $(MAKE) install-library; \
	else echo "the library for C isn't built, and left out: make -C bindings/c, then make install-library"; fi

install-programs:
	install -d "$(AT)/bin" "$(LIBEXEC)/people" "$(DOC)" "$(AT)/share/man/man1"
	install -d "$(AT)/share/bash-completion/completions" "$(AT)/share/zsh/site-functions" "$(AT)/share/fish/vendor_completions.d"
	: > "$(DOC)/BUILT"
	for name in $(PROGRAMS); do \
		told=$$(tools/run_program --which $$name) || exit 2; \
		install -m 755 "$${told#* }" "$(LIBEXEC)/$$name"; \
		echo "$$name $${told%% *}" | tee -a "$(DOC)/BUILT"; \
		sed -e "s/@BUILT@/$${told%% *}/" -e "s/@NAME@/$$name/g" tools/people/installed.sh > "$(AT)/bin/$$name"; \
		chmod 755 "$(AT)/bin/$$name"; \
	done
	install -m 644 tools/people/check_lines.py tools/people/first_run.py tools/people/generic.py tools/people/notation.py \
		tools/people/program.py tools/people/reduce.py tools/people/report.py "$(LIBEXEC)/people"
	install -m 755 tools/run_program "$(LIBEXEC)/run_program"
	install -m 755 tools/rachonpas-cc tools/rachonpas-c++ "$(AT)/bin"
	made=$$(mktemp -d) && PLIR_PROGRAM="$(LIBEXEC)/plir" PLIR_MLIR_PROGRAM="$(LIBEXEC)/plir_mlir" PLIR_LLVM_PROGRAM="$(LIBEXEC)/plir_llvm" \
		python3 tools/people/completions.py "$$made" && \
		install -m 644 "$$made"/*.1 "$(AT)/share/man/man1" && \
		install -m 644 "$$made/plir.bash" "$(AT)/share/bash-completion/completions/plir" && \
		install -m 644 "$$made/_plir" "$(AT)/share/zsh/site-functions/_plir" && \
		install -m 644 "$$made/plir.fish" "$(AT)/share/fish/vendor_completions.d/plir.fish" && rm -r "$$made"
	install -m 644 README.md LICENSE NOTICE CHANGELOG.md SECURITY.md VERSION "$(DOC)"

install-library:
	install -d "$(DOC)"
	$(MAKE) -C bindings/c install PREFIX="$(PREFIX)" DESTDIR="$(DESTDIR)" $(if $(LIBRARY),LIBRARY="$(abspath $(LIBRARY))")
	echo "librachonpas $$(cat bindings/c/out/BUILT)" | tee "$(DOC)/BUILT-library"

dist:
	git archive --format=tar.gz --prefix=rachonpas-$(VERSION)/ -o rachonpas-$(VERSION).tar.gz HEAD
	@ls -l rachonpas-$(VERSION).tar.gz

check:
	.ci/run

.PHONY: all help install install-programs install-library dist check
