# Pikhsen: proves, builds, tests, installs and packages the programs and the library.

PREFIX ?= /usr/local
# Where make bench puts its table and its picture, without .tsv and .svg.
BENCH ?= docs/benchmarks
SOURCES := crates.txt packaging/heap.c packaging/heap.sh \
	$(shell find crates -name out -prune -o -type f \( -name '*.rt' -o -name '*.antt' \) -print)
# The levels that this machine's processor has, of the two that can be built for, and the one that is built for.
V3 := avx2 bmi1 bmi2 f16c fma movbe abm
LEVELS := x86-64-v2 $(if $(filter-out $(shell sed -n 's/^flags.*: //p' /proc/cpuinfo | head -n 1),$(V3)),,x86-64-v3)
CPU ?= $(lastword $(LEVELS))
# The programs, and where they are built for these levels.
PROGRAMS := $(shell cut -d' ' -f1 packaging/programs)
built = $(foreach level,$(1),$(PROGRAMS:%=bin/$(level)/%))

.DELETE_ON_ERROR:
.NOTPARALLEL:
.PHONY: help run lib compat check test doc reading install prefix uninstall deb wheel builds bench clean

help: ## prints these lines
	@sed -n 's/^\([a-z]*\):.*## /make \1\t/p' Makefile | expand -t 16

run: $(call built,$(CPU)) ## proves and builds the programs, into bin/; then a first run
	@packaging/chosen.sh $(CPU)
	@echo '$(PROGRAMS:%=bin/%) are proved, and built for processors of the level $(CPU) and above.' >&2
	@printf password | bin/argon2 somesalt -d -t 1 -k 8 -e

# There is no unproved build. A rule with several targets runs once for all of them.
$(addprefix bin/%/,$(PROGRAMS)): $(SOURCES) packaging/link.sh packaging/programs packaging/untraced.c
	@packaging/build.sh $*

lib: bin/lib/libpikhsen.so.0 ## proves and builds the library for C, in bin/lib/
	@echo 'bin/lib/libpikhsen.a and bin/lib/libpikhsen.so.0 are proved, and built for: $(LEVELS).' >&2

bin/lib/libpikhsen.so.0: $(SOURCES) packaging/lib.sh packaging/pikhsen.map
	@packaging/lib.sh bin/lib $(filter-out x86-64-v2,$(LEVELS)) x86-64-v2

compat: bin/lib/pikhsen/compat/libargon2.so.1 ## builds libargon2.so.1 and a provider of OpenSSL's scrypt over the library

bin/lib/pikhsen/compat/libargon2.so.1: bin/lib/libpikhsen.so.0 packaging/compat.sh $(wildcard compat/*/*)
	@packaging/compat.sh bin/lib bin/lib/pikhsen/compat

check: ## proves and tests what differs from the last commit
	tests/build/changed.py

# What was built for another level is tested, too, and built anew before, if the sources changed.
test: $(filter bin/x86-64-v3/%,$(wildcard $(LEVELS:%=bin/%/scrypt))) ## the gate: proofs, tests, wrong bodies, the built programs
	@rm -rf bin/rooms bin/left_out && mkdir -p bin && printf '# begun:\t%s\n' $$(date +%s) >bin/gate.tsv
	@$(MAKE) --no-print-directory -f tests/build/gate.mk -j -O gate LEVELS='$(LEVELS)'

reading: ## writes bin/reading/: what a reader must judge (CALL=CRATE::NAME: of that), and what each crate exports
	tests/pages/reading_page.py $(CALL)
doc: reading

# By the environment, since a prefix may have any sign in it. The script looks at PREFIX itself before it touches anything,
# and before programs are built.
install uninstall: export PREFIX := $(PREFIX)
install: | prefix $(PROGRAMS:%=bin/%) ## installs programs, pages and completions below PREFIX
	@PIKHSEN_SAY=1 packaging/install.sh install "$$DESTDIR$$PREFIX" bin $(patsubst %/libpikhsen.a,%,$(wildcard bin/lib/libpikhsen.a)) >&2
	@echo "$(PROGRAMS) are built for $$(cat bin/level)" >&2

prefix:
	@packaging/install.sh check "$$DESTDIR$$PREFIX"

uninstall: ## removes what make install installed, unless it was changed
	@packaging/install.sh uninstall "$$DESTDIR$$PREFIX"

# The level for which one more package of the programs is made: CPU, where it is given.
HIGHER := $(if $(filter file,$(origin CPU)),,$(filter-out x86-64-v2,$(CPU)))
deb: $(call built,x86-64-v2 $(HIGHER)) bin/lib/libpikhsen.so.0 compat ## makes packages for Debian in bin/ (CPU=x86-64-v3: one more)
	@packaging/deb.sh bin/lib bin $(HIGHER)
	@echo 'made:' bin/*pikhsen*_$$(cat VERSION)[_+]*.deb >&2

wheel: bin/lib/libpikhsen.so.0 ## makes a wheel for pip in bin/: the module with its library
	@packaging/wheel.sh bin/lib bin
	@echo 'made:' bin/pikhsen-*.whl >&2

# Over the sources of a release `git diff` shows then whether the same toolchain and tools made the same bytes. Packages have
# the time of the last commit of anything else. Needs a processor of the level x86-64-v3.
builds: export SOURCE_DATE_EPOCH = $(shell git log -1 --format=%ct -- . ':!docs/builds.sha256')
builds: $(call built,x86-64-v2 x86-64-v3) deb ## writes docs/builds.sha256 at a release: the sums of all that is built
	@{ echo "# $$(rt version)" && for tool in ld cc objcopy dpkg-deb gzip; do echo "# $$($$tool --version | head -n 1)"; done && \
		sha256sum $(call built,x86-64-v2 x86-64-v3) bin/lib/libpikhsen.* bin/lib/glibc-hwcaps/x86-64-v3/libpikhsen.so.0 \
			bin/*pikhsen*_$$(cat VERSION)_*.deb; } >bin/builds
	@mv bin/builds docs/builds.sha256

bench: $(call built,$(LEVELS)) bin/lib/libpikhsen.so.0 ## times the programs beside those that are installed
	bench/table.py $(LEVELS:%=bin/%) --out $(BENCH)
	bench/beside.py $(LEVELS:%=bin/%)

clean: ## removes bin/ and all kept proofs
	rm -rf bin crates/*/out

$(PROGRAMS:%=bin/%) &:
	@$(MAKE) --no-print-directory run
