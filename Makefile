# make demo   the main job on a small book: its chapters walked in two orders, and the faces that its elements get
# make test   the gate: proofs, must-fail edits, programs, and the comparison with the published Rust
# make bench  what calls cost against the published Rust, in time and memory: some two minutes on a quiet machine, not part of the gate (RUNS=n sets how many runs)
# make help   this list
.PHONY: help demo test bench compare fuzz store clean

help:
	@sed -n 's/^# //p' Makefile

demo:
	@tools/demo

test:
	@tools/test

bench:
	@tools/bench

# make compare   only the comparison, over programs that are built already (SEED=n and CASES=n set the run, JOBS=n how many kinds at once)
compare:
	@tools/compare

# make fuzz   the comparison with ever new seeds, for ten minutes or SECONDS=n (0: until stopped); it stops at the first difference
fuzz:
	@tools/fuzz $(SECONDS)

# make store   write the stored cases and answers anew from the published Rust
store:
	@tools/store

# make clean   remove what was built
clean:
	rm -rf target oracle/target crates/*/out
