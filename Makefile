# The commands of this repository. `rt` is the kit's command.
.PHONY: demo try check edits test refusals build bench compare

# Proves and builds the program, its crates in parallel.
build:
	@python3 tests/build.py relay

# Shows the program's commands on the examples, built without proof.
demo:
	@python3 examples/demo.py

# Runs every test, of the crates and of the program, built without proof.
try:
	@python3 tests/try.py

# Proves one crate, runs its tests and tries its edits: `make check CRATE=relay_core`.
check:
	@test -d "crates/$(CRATE)/src" || { echo "usage: make check CRATE=NAME, where crates/NAME is a crate"; exit 1; }
	cd crates/$(CRATE) && rt check
	@tests="$$(python3 tests/crates.py $(CRATE))"; if test -n "$$tests"; then cd "crates/$$tests" && rt test; fi
	@if test -d crates/$(CRATE)/must-fail; then rt must-fail $(CRATE); fi
	@if test -d crates/$(CRATE)/edits; then python3 tests/edits.py $(CRATE); fi

# Tries the edits in crates/*/edits; the kit's gate tries those in crates/*/must-fail.
edits:
	python3 tests/edits.py

# The gate, with the processor minutes of each crate, and then the end-to-end tests of the program that it proved and built.
test:
	@echo "following the pointers of the tables of rules"
	python3 tests/pointers.py
	@echo "following the paths, links and options of README.md and docs"
	python3 tests/documents.py
	@echo "testing the script that tries edits"
	python3 tests/edits_test.py
	@echo "running the gate; this takes a long time, and reports its progress every minute"
	python3 tests/gate.py
	@echo "passing what relay_http writes to Python's HTTP client and server"
	@python3 tests/http_fixtures.py > /dev/null
	@echo "running the end-to-end tests of the benchmark's tool, of the example, of what the documents show and of the program"
	python3 tests/bench_tool.py crates/relay_bench/out/relay_bench
	python3 tests/example_program.py crates/relay_example/out/relay_example
	python3 tests/documents.py crates/relay/out/relay
	python3 tests/suites.py crates/relay/out/relay

# Tests that the gate built, with each of their allocations refused in turn, and runs of the program with many refused.
refusals:
	@echo "refusing each allocation in turn; this takes a few minutes"
	python3 tests/refusals.py crates/relay/out/relay

# Ratios to other programs, measured in one run.
bench:
	@python3 tests/build.py relay relay_bench
	python3 bench/run.py

# The relay and other bulk helpers on the same faults: what each loses, doubles, reorders or misreports.
compare:
	@python3 tests/build.py relay
	python3 bench/compare.py
