# The commands of the project. `make` alone lists them.
.PHONY: help test run table check lib soak bench fmt clean

help:
	@echo "make run     report on the take of paper 01's case P1, the folder examples/p1"
	@echo "make run DIR=folder   report on the take in that folder, which holds setup.txt and take.bin (see README.md)"
	@echo "make test    the whole gate: prove every crate, refuse every must-fail edit, run every test"
	@echo "make table   print the refusal table through the library's own function"
	@echo "make check   prove every crate and run its programs, without the must-fail edits"
	@echo "make lib     build/lib/liburdhvasolk.a and .so for C and Python; their header is include/urdhvasolk.h"
	@echo "make soak SECONDS=n   compare library and second program for n seconds; SEED=s begins at that seed"
	@echo "make bench   measure repack (with user bits too), judge, harvest, write beats and merge against plain Rust; it takes some seconds and is no part of the gate"
	@echo "make fmt     lay out every .rt and .antt file"
	@echo "make clean   remove everything that was built"

# tests/gate runs rt ci over every crate of crates.txt, then the tests outside the crates, and sums up.
test: need-rt
	@sh tests/gate

# The report on the take in DIR, on standard output and nothing else there, so that a script can read it.
DIR = examples/p1
run: need-rt
	@[ -d "$(DIR)" ] || { echo "there is no folder '$(DIR)': make a folder with setup.txt and take.bin in it, then make run DIR=that-folder" >&2; exit 1; }
	@[ -x crates/report/out/report ] || echo "proving and building the report program first; this takes some minutes" >&2
	@(cd crates/report && rt run) > build/run.log 2>&1 < /dev/null || { tail -n 20 build/run.log >&2; echo "the report program was not built, see above (whole log: build/run.log)" >&2; exit 1; }
	@cd "$(DIR)" && "$(CURDIR)/crates/report/out/report"

table: need-rt
	@(cd crates/table && rt run) 2> build/table.log || { tail -n 20 build/table.log; exit 1; }

check: need-rt
	rt all check
	@for name in cases report table; do sh tests/program $$name || exit 1; done

lib: need-rt
	@sh bindings/build

# a difference gives exit status 1, and prints the command that repeats it
soak: need-rt
	@sh tests/second/soak "$(SECONDS)" "$(SEED)"

bench: need-rt
	@sh bench/run

fmt: need-rt
	@for crate in crates/*; do (cd $$crate && rt fmt) || exit 1; done

clean:
	rm -rf build crates/*/out

.PHONY: need-rt
need-rt:
	@mkdir -p build
	@command -v rt > /dev/null || { echo "rt is not on the PATH: install the Rattle kit and put its bin folder on the PATH"; exit 1; }
