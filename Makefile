# make run: prove the program, and run it on the 50 example.   make test: the whole gate.
# make rust: the static libraries and what links them.   make rust-test: the comparisons from outside.   make bench: docs/BENCHMARK.md.
.PHONY: run test rust rust-test bench

run:
	tools/build.sh plan
	@echo 'The path:'
	@examples/show.py <examples/paths/good-fifty-5.path
	@echo 'Its order file, as the program writes it:'
	@target/bin/plan <examples/paths/good-fifty-5.path | examples/show.py

test:
	.ci/run

rust:
	tools/build.sh exports cell
	cd rust && cargo build --release --offline

rust-test:
	rust/test.sh

bench: rust
	rust/target/release/bench
	mkdir -p target/c
	gcc -std=c11 -Wall -Wextra -Werror -O2 -pthread -Iinclude examples/c/measure.c target/staticlib/libcell.a -o target/c/measure
	target/c/measure >>docs/BENCHMARK.md
