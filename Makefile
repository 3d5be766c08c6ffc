# The commands that people and the gate use; `make` alone lists them. README.md says what each is for.
.PHONY: help test check demo replay hashes vectors embed lib listings fuzz bench wrong clean

SEED = 2
CALLS = 1000000

help:
	@echo 'What there is to make, and how long it takes on two cores. What was proved before and has not changed is not proved again,'
	@echo 'in this tree; the first time, demo and replay, embed and lib take some minutes more.'
	@echo
	@echo '  make test                    the gate: every proof, wrong programs too          up to half an hour'
	@echo '  make check [CRATE=calls]     proves one crate and those that it uses, or all    up to two minutes a crate'
	@echo '  make demo [IN=FILE]          a listing of calls, the answers between its lines  a second'
	@echo '  make replay IN=FILE          the answers alone                                  a second'
	@echo '  make hashes [IN=FILE]        SHA-1 and HMAC-SHA1 on request                     a second'
	@echo '  make vectors                 the published vectors                              a second'
	@echo '  make embed                   the store in C, examples/embed.c                   half a minute'
	@echo '  make lib                     dist/: library, header and pkg-config file         half a minute'
	@echo '  make fuzz [SEED=2] [CALLS=1000000]   the C face against the second engine       a minute'
	@echo '  make bench                   how fast hashes and calls are                      some minutes'
	@echo '  make wrong [CRATE=calls]     further programs that must not pass                some minutes a crate'
	@echo '  make listings                makes the stored listings again                    a minute'
	@echo '  make clean                   removes target/, second/target/ and dist/          a second'

test:
	@tools/test

check:
	@if [ -n "$(CRATE)" ]; then cd "crates/$(CRATE)" && rt check; else rt all check; fi

demo:
	@tools/demo "$(IN)"

replay:
	@tools/replay "$(IN)"

hashes:
	@tools/hashes "$(IN)"

vectors:
	@tools/vectors

embed:
	@tools/embed

lib:
	@tools/lib

listings:
	@cd second && cargo build --release --offline --quiet --target-dir target --bin listings --bin engine_listings
	@second/target/release/listings crates/digests
	@second/target/release/engine_listings crates/replay

fuzz:
	@tools/staticlib
	@second/fuzz.sh $(CALLS) $(SEED)

bench:
	@tools/staticlib
	@second/bench.sh

wrong:
	@tools/wrong $(CRATE)

clean:
	@rm -rf target second/target dist
