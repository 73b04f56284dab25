# Needs the Rattle kit, whose command `rt` is on the path.

sources := $(shell find crates \( -name out -o -name must-fail \) -prune -o -type f -print)

.PHONY: help demo libraries test ways programs pictures second-way fuzz sweep again memory must_not_compile costs wrong-bodies edge budget bench clean

# Proves what ./cilk is made of, and builds it.
cilk: crates.txt HANDLES $(sources)
	tools/build

# Proves the libraries of the program where they stand, for who works on a crate: rt check in its folder goes on from there.
libraries:
	tools/prove

# Lists what may be asked for.
help:
	@awk '/^# /{said=substr($$0,3)} /^[a-z][a-z_-]*:/{sub(/:.*/,""); printf "make %-18s%s\n",$$0,said; said=""}' Makefile

# Proves, builds, runs the sample, and shows a race in the debugger.
demo: cilk
	tools/demo ./cilk

# The gate, which what lands has to pass (docs/GATE.md).
test: ways
	tools/gate

# Counts the ways down through crates.txt, looks up what the pages name, and tells what is not as the house wants its files (docs/GATE.md).
ways:
	tools/ways
	tools/pages & pages=$$!; tools/house && wait $$pages

# Tells what was dear in the last proofs: functions, and crates.
costs:
	tools/costs

# Tries ./cilk on the cases of programs/, on the examples of the pages, on runs by several workers, on runs that are broken off, backwards, on pictures, and
# as an editor.
programs: cilk
	tools/programs ./cilk
	tools/examples ./cilk
	tools/threads ./cilk
	tools/broken_off ./cilk
	tools/backwards ./cilk
	tools/drawn ./cilk
	tools/dap_client ./cilk

# Draws the logs of the samples anew, into docs/pictures.
pictures: cilk
	tools/drawn ./cilk --write

# Compares what ./cilk explore tells of the samples, or of programs in FOLDERS, and of WRITTEN (0) by chance, with lists of choices or seeds (docs/GATE.md).
second-way: cilk
	tools/second_way ./cilk $(if $(JOBS),--jobs $(JOBS)) $(if $(WRITTEN),--written $(WRITTEN)) $(FOLDERS)

# Tries ./cilk for SECONDS (600) on inputs made by chance, from SEED (1) and by JOBS processes (one a processor); found/ gets what breaks a law (docs/GATE.md).
fuzz: cilk
	tools/fuzz ./cilk --seconds $(or $(SECONDS),600) --seed $(or $(SEED),1) $(if $(JOBS),--jobs $(JOBS))

# Refuses ./cilk each growth of memory in turn, and each read and write, over programs/ and all subcommands; SPOILED=61 is less dear (docs/GATE.md).
sweep: cilk
	tools/sweep ./cilk $(if $(SPOILED),--spoiled $(SPOILED))

# Refuses the tests of calls that are made again each growth of memory in turn, as rt test in crates/cilk_tests_again left them built (docs/GATE.md).
again:
	tools/again crates/cilk_tests_again/out/cilk_tests_again_tests

# Runs ./cilk in 3 to 40 MB of memory: the right answer comes, or that there is no memory (docs/GATE.md).
memory: cilk
	tools/memory ./cilk

# Tries the examples that the compiler must refuse.
must_not_compile:
	tools/must_not_compile

# Tries the wrong bodies of the crates named in CRATES, or those named there as CRATE/EDIT, or all (docs/GATE.md).
wrong-bodies:
	tools/wrong_bodies $(CRATES)

# Tries wrong bodies of the outermost functions, on each of which a case must fail (docs/GATE.md).
edge: libraries
	tools/edge

# Measures what the gate costs, against one proof of each crate (docs/GATE.md).
budget:
	tools/gate_budget

# Measures ./cilk print beside gcc, run and replay beside ocamldebug, logs beside sha256sum, explore beside SPIN, races, and runs by several workers.
bench: cilk
	tools/bench ./cilk
	tools/bench_runs ./cilk
	tools/bench_back ./cilk
	tools/bench_workers ./cilk
	tools/bench_logs ./cilk
	tools/bench_explore ./cilk
	tools/bench_races ./cilk

# Removes the program and all that was proved.
clean:
	rm -rf cilk crates/*/out
