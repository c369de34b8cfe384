.PHONY: demo test bench

# The main job on sample data: an image becomes a bundle, and a device takes it or refuses it.
demo:
	@echo 'First the programs and all that they rest on are proved: some minutes, once.'
	@tests/build pack loader wake
	@examples/demo

# Every proof, every must-fail edit, every program and every test; the last line is 'N passed, M failed'.
test:
	@tests/all

# The tables of docs/MEASURED.md.
bench:
	@bench/run
