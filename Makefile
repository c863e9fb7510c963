# make run: proves and builds the console, and runs it on its stored task.
# make test: the gate.
# make bench: proves and builds the libraries for C, and measures its lookups and updates beside the same in C and, where it is installed, DPDK.
.PHONY: run test bench

run:
	@echo "Proving and building the console; the first time this takes some minutes."
	@mkdir -p target
	@cd crates/console && rt run < stdin 2> ../../target/console.log || { tail -n 40 ../../target/console.log; exit 1; }

test:
	bash .ci/run

bench:
	@echo "Proving and building the libraries; the first time this takes some minutes."
	@mkdir -p target/bench
	@cd crates/linecard && rt lib > ../../target/bench/proof.log 2>&1 || { tail -n 40 ../../target/bench/proof.log; exit 1; }
	@cd crates/feed && rt lib > ../../target/bench/proof.log 2>&1 || { tail -n 40 ../../target/bench/proof.log; exit 1; }
	@bash bench/run
