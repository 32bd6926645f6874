# The repository's commands. `make` lists them; each is a command that also works by itself.

help: ## list these commands
	@sed -n 's/^\([a-z]*\):.*## \(.*\)/\1\t\2/p' Makefile | expand -t 10

build: ## prove and build the program (dev/build)
	./gist --build

library: ## put the released library for C into the folder lib (tools/library)
	tools/library --release lib

test: ## run all tests that need no proof, on the built program or the released one (tests/run)
	tests/run

lint: ## check pages, the names in them, plots, Python and mutants
	dev/lint-docs
	dev/check-clauses
	dev/dependents --check
	bench/plots.py --check
	dev/lint-python
	tests/dev_tests.py
	tests/mutation_tests.py

docs: ## write the generated parts of pages: the table of crates, and plots
	dev/dependents
	bench/plots.py

bench: ## measure the released program and library (bench/README.md)
	bench/bench.py --release
	bench/library.py --release

release: ## pack what these sources build (dev/release)
	dev/release

setup: ## install what optional tests and linters need (dev/setup; root, Debian)
	dev/setup

ci: ## run the whole gate (dev/gate)
	.ci/run

.PHONY: help build library test lint docs bench release setup ci
