# Needs `rt`, the command of the Rattle kit, make and python3, which rt needs too: nothing else, but for
# `make bench`.

.PHONY: run try build install examples test test-page docs mutants gate-times reading-list bench fuzz soak

# Replays one whole reset on the line of nodes 1, 2, 3: by the proved program where `make build` has left it, else
# by the program before its proof, within one to two and a half minutes.
run:
	@tools/run replay examples/first/one-wave/topology.toml examples/first/one-wave/script

# Runs any subcommand before the proof: make try ARGS="check examples/first/one-wave/topology.toml examples/first/one-wave/script". The files that it names
# are copied; what it writes to files is lost.
try:
	@tools/run --unproved $(ARGS)

# Leaves the proved program at build/reset-service.
build:
	@tools/build

# Puts the proved program into PREFIX/bin, with its manual page and what bash completes: make install PREFIX=$HOME/.local
PREFIX ?= /usr/local
install: build
	@tools/manual build/reset-service build/manual
	install -D -m 755 build/reset-service "$(DESTDIR)$(PREFIX)/bin/reset-service"
	install -D -m 644 build/manual/reset-service.1 "$(DESTDIR)$(PREFIX)/share/man/man1/reset-service.1"
	install -D -m 644 build/manual/reset-service "$(DESTDIR)$(PREFIX)/share/bash-completion/completions/reset-service"

# Runs the examples alone on the built program, in seconds.
examples: build
	@tests/cli/examples.sh build/reset-service

# Everything that decides: the gate `rt ci`, and then the examples and the words on the program that
# it has built.
test:
	@bash tests/all

# Opens pages in Chromium (the Debian package `chromium`) and compares what they show with what the program prints.
test-page: build
	@tests/cli/page-browser.py build/reset-service

# Writes the pictures and pages of docs/ anew: those that the guide's commands leave, and those of one reset.
docs: build
	@tests/docs/guide.py build/reset-service --write

# Tries the wrong bodies that the gate leaves out, of one crate or of all: make mutants CRATE=topology
mutants:
	@bash tools/mutants $(CRATE)

# Runs the gate and prints where its time goes, and then the functions that are proved slowly.
gate-times:
	@tools/gate-times
	@tools/gate-times functions

# Writes docs/trust.md anew: what one reads to believe the headline, from the sources as they are.
reading-list:
	@mkdir -p build
	@tools/reading-list >build/trust.md
	@mv build/trust.md docs/trust.md

# Compares the program with a plain Rust program of the same replay, bench/baseline. Needs rustc,
# valgrind and GNU time beside. Then what pages cost, in Chromium too where there is one.
bench: build
	@bash bench/run build/reset-service
	@bash bench/run-book
	@bash bench/run-explore build/reset-service
	@bench/run-page build/reset-service

# Compares the program with a second one, written in Python, on random texts: make fuzz N=100000 SEED=s JOBS=2
fuzz: build
	@tests/hostile/fuzz.py build/reset-service $(or $(N),100000) $(or $(SEED),reset) $(JOBS)

# Runs 64 node threads for long, three times, and verifies what they keep: make soak TURNS=5000
soak: build
	@tests/hostile/soak.py build/reset-service $(TURNS)
