# Two commands do all there is to do: `make report < FILE` and `make test`. They need the Rattle kit (rt), rustc and make. `make compare` is
# the part of `make test` that takes a minute; `make bench` measures, and needs valgrind too.
.PHONY: report test compare bench clean
# two runs of `rt` in one crate would write the same files
.NOTPARALLEL:

# The proved programs. `rt run` proves a program and what is below it, compiles it to out/NAME and runs it, here on an empty input.
PROGRAMS = nightplan codec answers
SOURCES := $(shell find crates -name out -prune -o \( -name '*.rt' -o -name '*.antt' \) -print)
define program
crates/$(1)/out/$(1): crates.txt $$(SOURCES)
	@cd crates/$(1) && rt run < /dev/null > /dev/null && touch out/$(1)
endef
$(foreach name,$(PROGRAMS),$(eval $(call program,$(name))))
BUILT = $(foreach name,$(PROGRAMS),crates/$(name)/out/$(name))

# The report on a stored plan. What is built says nothing on standard output, so that the report is all there is.
report: crates/nightplan/out/nightplan
	@sh run.sh nightplan

# The proofs, the must-fail edits and the stored program runs; then the comparison with the second program. `rt ci` proves from nothing all
# that it has not passed on this machine.
test:
	@sh compare/test.sh

# The comparison alone (compare/README.md).
compare: $(BUILT)
	@sh compare/compare.sh

# Instructions and time of nightplan against the second program, and the rounds that best paths need (bench/README.md).
BENCHED = $(patsubst %,plans/%.plan,full ring abilene a bare)
bench: crates/nightplan/out/nightplan
	@mkdir -p build/bench
	@sh bench/native.sh build/bench
	@rustc -O --edition 2021 -D warnings second/second.rs -o build/bench/second
	@rustc -O --edition 2021 -D warnings bench/bench.rs -o build/bench/bench
	@rustc -O --edition 2021 -D warnings bench/rounds.rs -o build/bench/rounds
	@build/bench/bench build/bench/nightplan 'build/bench/second report' build/bench $(BENCHED)
	@echo
	@build/bench/rounds $(BENCHED)

clean:
	rm -rf crates/*/out build
