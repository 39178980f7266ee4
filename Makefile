# make test   every test, the gate of every change
# make demo   what the library does today, on a small example
# make bench  the archive's times against a plain Rust twin
.PHONY: test demo bench

test:
	@tools/test

demo:
	@tools/demo

bench:
	@tools/bench
