# make demo: proves and builds the exchange, holds the sample evening, prints its result, and checks its sheet and letters.
# make test: the gate.
# make fuzz: gives a million random and spoiled inputs to the programs; wants rustc.
# make bench: times the evening beside the same in plain Rust; wants rustc.
.PHONY: demo test fuzz bench

demo:
	@sh tests/build.sh evening check_sheet check_letter
	@target/bin/evening --out target/demo < crates/evening/stdin
	@echo "sheet: $$(target/bin/check_sheet target/demo/entries.bin target/demo/sheet.bin)"
	@for letter in target/demo/letter-*.bin; do echo "$$letter: $$(target/bin/check_letter $$letter)"; done

test:
	@sh tests/gate.sh

fuzz:
	@sh tests/build.sh evening check_sheet check_letter
	@sh tests/fuzz.sh

bench:
	@sh tests/build.sh evening
	@rustc --edition 2021 -O -o target/bench bench/bench.rs
	@target/bench compare target/bin/evening
