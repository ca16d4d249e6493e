# Proving, building, installing and comparing. `make help` lists the targets: a target is listed if a ## and a sentence stand beside it.
SHELL = bash
.SHELLFLAGS = -o pipefail -c
LOG ?= samples/panel.evtx
EVT ?= samples/oldpanel.evt
NUMBER ?=
MINUTES ?=
SEED ?=
PREFIX ?= /usr/local
DESTDIR ?=
VERSION = 0.6.0

program = target/bin/evtx_list
# The same program: it carves where it is called by the first of these names, and indexes where it is called by the second.
carver = target/bin/evtx_carve
indexer = target/bin/evtx_index
# In C, over the library.
evt_program = target/bin/evt_list
archive = target/staticlib/libevtx_c.a
sources := crates.txt $(shell find crates -name out -prune -o \( -name '*.rt' -o -name '*.antt' \) -print)
root = $(DESTDIR)$(PREFIX)

# The soname has the first part of the version: a program linked with this library runs with a later one of the same first part.
soname = libevtx_c.so.$(firstword $(subst ., ,$(VERSION)))
shared = target/lib/libevtx_c.so.$(VERSION)
completions = share/bash-completion/completions

# What is installed, as PLACE:MODE:SOURCE, or PLACE:link:TARGET. Both install and uninstall go by this list.
installed = \
	bin/evtx:755:packaging/evtx \
	bin/evtx_list:755:$(program) \
	bin/evtx_carve:link:evtx_list \
	bin/evtx_index:link:evtx_list \
	bin/evt_list:755:$(evt_program) \
	include/evtx.h:644:include/evtx.h \
	lib/libevtx_c.a:644:$(archive) \
	lib/libevtx_c.so.$(VERSION):644:$(shared) \
	lib/$(soname):link:libevtx_c.so.$(VERSION) \
	lib/libevtx_c.so:link:$(soname) \
	lib/pkgconfig/evtx.pc:644:target/evtx.pc \
	share/man/man1/evtx.1:644:packaging/evtx.1 \
	share/man/man1/evtx_list.1:644:packaging/evtx_list.1 \
	share/man/man1/evtx_carve.1:644:packaging/evtx_carve.1 \
	share/man/man1/evtx_index.1:644:packaging/evtx_index.1 \
	share/man/man1/evt_list.1:644:packaging/evt_list.1 \
	$(completions)/evtx:644:packaging/evtx.bash \
	$(completions)/evtx_list:link:evtx \
	$(completions)/evtx_carve:link:evtx \
	$(completions)/evtx_index:link:evtx \
	$(completions)/evt_list:link:evtx

.PHONY: help test list carve index evt install uninstall clean compare examples bench soak fuzz
.NOTPARALLEL:

help: ## says what each target does
	@awk -F ':.*## ' '/^[a-z0-9_-]+:.*## / { printf "make %-9s %s\n", $$1, $$2 }' Makefile

test: ## proves every crate, tries the edits that must be refused and runs every check: the gate
	@bash .ci/run

list: $(program) $(carver) $(indexer) ## lists samples/panel.evtx, or the log named by LOG=path
	@$(program) "$(LOG)"

carve: $(carver) ## lists the whole records in the bytes of samples/panel.evtx, or of the file named by LOG=path
	@$(carver) "$(LOG)"

index: $(indexer) ## writes the index of each chunk of samples/panel.evtx, or of the log named by LOG=path; with NUMBER=n only records with that number
	@$(indexer) $(NUMBER) "$(LOG)"

evt: $(evt_program) ## lists samples/oldpanel.evt, or the EVT log named by EVT=path
	@$(evt_program) "$(EVT)"

# Where EVT is given, no other program is needed.
compare: $(if $(filter file,$(origin EVT)),$(program),$(evt_program)) ## compares our listing of LOG=path, or of EVT=path, with the second reader's, and with those of public readers if installed
	@$(if $(filter file,$(origin EVT)),bash tests/compare_log.sh $(program) "$(LOG)",bash tests/compare_evt_log.sh $(evt_program) "$(EVT)")

examples: $(program) $(archive) ## builds the examples in C, Rust and Python and compares what they write with what is due
	@bash tests/examples.sh

bench: $(program) $(carver) $(archive) ## measures speed and memory beside other programs (docs/BENCHMARKS.md)
	@$(MAKE) --no-print-directory -C bench

soak: $(program) $(archive) ## compares both readers for MINUTES=n, each time with another seed, or once with SEED=s (docs/ENDURANCE.md)
	@bash tests/soak.sh $(or $(MINUTES),0) $(SEED)

fuzz: $(archive) ## compares both readers for MINUTES=n (1) on inputs guided by the code that they reach (docs/ENDURANCE.md)
	@bash tests/fuzz.sh $(or $(MINUTES),1)

install: $(program) $(evt_program) $(archive) $(shared) ## installs programs, libraries, header, man pages and completion under PREFIX (/usr/local), in DESTDIR if given
	@sed -e 's|@PREFIX@|$(PREFIX)|' -e 's|@VERSION@|$(VERSION)|' packaging/evtx.pc.in >target/evtx.pc
	@bash packaging/install.sh install "$(root)" $(installed)

uninstall: ## removes what make install put there, with the same PREFIX and DESTDIR, and its folders if they are empty and target/ has the note of them
	@bash packaging/install.sh uninstall "$(root)" $(installed)

clean: ## removes all that was built; what was proved has to be proved again
	@rm -rf target tests/target examples/rust/target crates/*/out

# $(call prove,COMMAND,LOG): says which crates are proved, as rt goes on. All that rt says is in the log, whose end is shown if it fails.
define prove
@mkdir -p target
@echo "make: the proofs are made first, which takes some minutes the first time" >&2
@$(1) 2>&1 | tee $(2) | bash packaging/progress.sh || { tail -n 20 $(2) >&2; exit 1; }
@touch $@
endef

# rt proves before it builds, one crate's run at a time. Where the sources have changed in nothing but their time, it proves nothing anew.
$(program): $(sources)
	$(call prove,bash packaging/program.sh,target/program.log)

$(carver) $(indexer): $(program)
	@ln -sfn evtx_list $@

$(archive): $(sources)
	$(call prove,bash packaging/archive.sh,target/archive.log)

$(evt_program): programs/evt_list.c include/evtx.h $(archive)
	@mkdir -p target/bin
	@gcc -std=c11 -O2 -Wall -Wextra -o $@ programs/evt_list.c $(archive)

# -z text: the linker refuses code that is not position independent.
$(shared): $(archive) packaging/libevtx_c.map
	@mkdir -p target/lib
	@gcc -shared -o $@ -Wl,-z,text -Wl,-z,defs -Wl,-soname,$(soname) -Wl,--version-script=packaging/libevtx_c.map \
		-Wl,--whole-archive $(archive) -Wl,--no-whole-archive
