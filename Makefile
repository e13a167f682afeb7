# make list SHEET=path   build the listing program and list a sheet
# make test              the gate: all proofs, must-fail edits, programs and tests
# make soak CASES=n      the library against the second program on n fresh cases; the first difference is kept in box/found
# make bench             both timed on the same inputs in one run; the listing program against cat; receives and whole sheets against a merge
#                        that looks at everything, in time and in instructions (valgrind), and with BEFORE=path against an earlier build of the
#                        library too, a shared object
# What takes long says on standard error what it does and how far it is.
CASES ?= 100000
BEFORE ?=
CARGO_RUN = cd rust && cargo run --release --offline --quiet --bin
.PHONY: list test soak bench

list:
	@program=$$(tools/build listing) && "$$program" < "$(SHEET)"

test:
	.ci/run

soak:
	@tools/build oboefinch >/dev/null
	@mkdir -p box/found
	@$(CARGO_RUN) soak -- $(CASES) ../box/found

bench:
	@tools/build oboefinch >/dev/null
	@tools/build listing >/dev/null
	@$(CARGO_RUN) bench
	@listing=../$$(tools/build listing) && $(CARGO_RUN) programs -- "$$listing" ../box/listing/sheet_a.in
	@$(CARGO_RUN) receives -- times $(abspath $(BEFORE))
	@$(CARGO_RUN) receives -- instructions $(abspath $(BEFORE))
