# The steps of the gate, each after those that have to end well before it: make test runs `make -f tests/build/gate.mk -j -O`.
# Steps run side by side where they may. What one printed is printed when it ended (that of `rt ci` at once), with its
# seconds by the clock and of the processors, which bin/gate.tsv keeps. After one has failed, none begins.
SHELL := /bin/bash
LEVELS := x86-64-v2
# Where processors are idle, rt shares a check among processes, and each of them loads the libraries: a fifth of all time. So
# each check gets one, and as many run side by side as processors and memory allow.
export RT_JOBS := $(shell cd packaging && python3 -B -c 'import prove; print(prove.places())')
# What tests leave out, which the last lines say again. Of programs that are not installed, that fails with PIKHSEN_ALL=1.
export PIKHSEN_LEFT_OUT := $(CURDIR)/bin/left_out
step = @{ t=$$({ TIMEFORMAT='%0R %0U %0S'; time $(1) >&3 2>&4; } 2>&1); r=$$?; } 3>&1 4>&2; set -- $$t; \
	said="$$1"$$'\t'"$$(($$2 + $$3))"$$'\t'"$(1)"; echo "== $$said"; echo "$$said" >>bin/gate.tsv; exit $$r
# The steps before `rt ci`, and those over compiled code, each a script.
before := tests/sources/sources.sh tests/pages/documents.py tests/pages/values.py tests/pages/definitions_told.py \
	tests/build/first_run.py tests/build/build_scripts.py tests/library/heap.py
of_code := tests/sources/calls.py tests/sources/calls_test.py tests/sources/as_compiled.py
outside := $(foreach it,$(LEVELS),$(if $(filter x86-64-v2,$(it))$(wildcard bin/$(it)/scrypt),outside-$(it)))

gate: refusals definitions c_face $(of_code)
	@awk -F '\t' -v now=$$(date +%s) 'NR == 1 {begun = $$2} NR > 1 {all += $$2} END {print now - begun "\t" all "\tall"}' \
		bin/gate.tsv >bin/gate.all && cat bin/gate.all >>bin/gate.tsv && rm bin/gate.all
	@cat bin/gate.tsv
	@touch $(PIKHSEN_LEFT_OUT) && sort -u $(PIKHSEN_LEFT_OUT)
	@! test "$$PIKHSEN_ALL" = 1 || ! grep -q 'is not installed' $(PIKHSEN_LEFT_OUT)

.PHONY: gate $(before) $(of_code) proved linked archive refusals definitions c_face
$(before):        ; $(call step,$@)
proved: $(before)
	@rm -rf crates/*/out/*_tool.o crates/*/out/rlib bin/*.rlib # rt ci leaves what it finds, be it of older sources
	+$(call step,rt ci)
linked: proved
	$(call step,tests/build/objects.py)
	@packaging/link.sh x86-64-v2
	@test -f bin/level && test "$$(cat bin/level)" != x86-64-v2 || packaging/chosen.sh x86-64-v2
archive: proved   ; $(call step,tests/library/archive.py)
$(of_code): archive ; $(call step,$@ bin/pikhsen_c.rlib)
refusals: proved  ; $(call step,tests/edits/refusals.py)
definitions: proved ; $(call step,tests/definitions/run.py)
	$(call step,tests/definitions/beside.py)
outside-%: linked ; $(call step,tests/programs/outside.sh bin/$*)
c_face: archive $(outside) ; $(call step,tests/library/c_face.py)
