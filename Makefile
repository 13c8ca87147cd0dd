# Two commands from a fresh machine with the Rattle kit on PATH.
.PHONY: run replay lib test

# Proves what the bench program stands on, builds it and runs it on document 01's frame 1 over store T.
run:
	.ci/program bench
	.ci/x86-64 crates/bench/out/bench < crates/bench/stdin && echo

# The same of the replay program: how many recorded answers ours agree with.
replay:
	.ci/program replay
	.ci/x86-64 crates/replay/out/replay < crates/replay/stdin

# The archive and the header for C programs, in target/lib.
lib:
	@.ci/archive

# The gate.
test:
	.ci/run

# The old server and ours on the frames of compare/sample.txt; writes results/results.html.
.PHONY: compare
compare:
	compare/run compare/sample.txt

# How long a call takes, the old server's and ours, and in how many instructions; elsewhere than on x86-64 only our instructions are counted. Writes
# results/speed.md.
.PHONY: speed
speed:
	compare/speed/run

# How much stack a call of each C function takes: the most over compare/sample.txt and the frames of `make speed`, and over values nested as deep as
# they may be.
.PHONY: stack
stack:
	@compare/speed/stack

# How many bytes of code a C program takes of the archive, by what it calls, and where they are. `compare/speed/flash ARCHIVE ARCHIVE` compares two.
.PHONY: flash
flash:
	@compare/speed/flash
