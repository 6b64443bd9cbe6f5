# run: proves the bench program and what it stands on, and runs it on document 01's given case. Standard output is the program's
#      alone.
# test: the whole gate.
.PHONY: run test

run:
	@./build.sh bench
	@target/bin/bench <crates/bench/stdin

test:
	bash .ci/run
