# Each of these sets up what it needs first.

.PHONY: demo test bench

# A year of tides, and the pupil's question answered with a picture.
demo:
	.ci/outside demo

# The gate: everything proved, every test run.
test:
	.ci/run

# The tables and plots of docs/BENCHMARKS.md, measured anew.
bench:
	.ci/outside bench
