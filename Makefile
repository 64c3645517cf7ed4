# make test: every check of the repository; its last line is rt ci's verdict.
# make libraries: prove the libraries for hosts and build them into lib/; each is made in its crate's folder out/, which rt ci sets aside.
# make benchmark: build what it needs and print the two tables of docs/PERFORMANCE.md.
.PHONY: test libraries benchmark
.NOTPARALLEL:

test:
	@tests/all.sh

libraries: lib/libtdd_bench.a lib/libtdd_codes.a

# The crate behind a library, where it has another name: what other crates use is exported by a crate of its own.
CRATE_tables := tables_c

lib/lib%.a: crates.txt $(shell find crates/*/src crates/*/specs crates/*/proofs 2>/dev/null)
	@mkdir -p lib target
	@echo "make: proving and building $@, which takes some minutes the first time" >&2
	@crate=$(or $(CRATE_$*),$*); (cd crates/$$crate && rt lib --cpu x86-64) >target/$*.log 2>&1 || { tail -n 5 target/$*.log >&2; echo "make: $@ is not proved; target/$*.log says why" >&2; exit 1; }; \
	cp crates/$$crate/out/lib$$crate.a $@

benchmark: libraries lib/libtables.a
	@cd host && cargo bench --quiet --bench benchmark
