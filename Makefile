# `make run` draws the sample captures to PNG; `make test` is the gate. Each sets up what it needs.
# Also: `make coverage` writes docs/COVERAGE.md anew; `make bench` measures the proved library beside the oracle and plots
# docs/growth.png anew; `make picture` draws docs/crates.svg anew.

BUILT := host/target/release
FRAMES := host/target/frames
PROVED := host/target/proved

# What is run and tested is the archive built here, even where ASHLARKIN_LIB_DIR names another.
unexport ASHLARKIN_LIB_DIR

.PHONY: run test setup tidy proofs edits library host host-tests compare oracle-tests c-tests coverage bench picture

run: host
	@rm -rf $(FRAMES)
	@$(BUILT)/ashlarkin batch samples -o $(FRAMES) --reading H --scale 2
	@echo 'drawn by the proved library, reading H:'
	@find $(FRAMES) -name '*.png' | sort

# The proofs come before the tests. `rt ci`'s last line is the verdict: it is printed once more at the very end, where nothing
# has failed and each must-fail edit was refused at a fact.
test: setup tidy proofs edits host-tests compare oracle-tests c-tests
	@tail -n 1 host/target/ci.txt

# What takes seconds: contracts, documents, and the tools that hold them. (`rt ci` refuses what isn't in `rt fmt`'s layout.)
tidy: setup
	@tools/contracts
	@tools/definitions
	@tools/uncited
	@tools/crates --check
	@tools/test-tools
	@tools/test-edits

proofs: setup
	@tools/ci

# Reads what `rt ci` said. A few edits it tries once more, over the library's kept proofs.
edits: proofs library
	@tools/edits

setup:
	@tools/setup

# Proves the library, over what earlier checks kept, and writes $(PROVED)/libashlarkin.a, which the host links. (`rt ci` keeps
# its proofs for itself.)
library: setup
	@cd crates/ashlarkin_c && rt lib
	@mkdir -p $(PROVED)
	@cmp -s crates/ashlarkin_c/out/libashlarkin_c.a $(PROVED)/libashlarkin.a || cp crates/ashlarkin_c/out/libashlarkin_c.a $(PROVED)/libashlarkin.a

host: library
	@cargo build -q --release -p ashlarkin-cli

host-tests: library
	@echo '== the wrapper: every refusal'
	@cargo test -q --release -p ashlarkin
	@echo '== the command on real and damaged captures; the C interface'
	@cargo test -q --release -p ashlarkin-cli

# The same cases each time, and others each time; the seed is printed, and a difference is kept.
compare: host
	@echo '== the proved library and the oracle'
	@$(BUILT)/ashlarkin compare --cases 150000 --seed 1 --keep host/target/difference.json
	@echo '== the proved library and the oracle: fresh seed'
	@$(BUILT)/ashlarkin compare --cases 50000 --keep host/target/difference.json

# The same cases in a release build, in a build that checks sums and assertions, and some with a fresh seed.
oracle-tests: setup
	@echo '== oracle: its source, its reach, its events, its differences, its reasons, the order of effects'
	@cargo test -q --release -p ashlarkin-oracle --test source --test reach --test events --test differences --test reasons --test reorderings
	@echo "== the list of crates/run_replay is the oracle's"
	@cargo run -q --release -p ashlarkin-oracle --example replay_list | cmp - crates/run_replay/stdin
	@echo '== oracle and document 01, typed twice: release'
	@cargo test -q --release -p ashlarkin-oracle --test second_opinion -- --cases 100000
	@echo '== oracle and document 01, typed twice: fresh seed'
	@cargo test -q --release -p ashlarkin-oracle --test second_opinion -- --cases 20000 --seed $$(date +%s)
	@echo '== oracle and document 01, typed twice: overflow checks and assertions on'
	@cargo test -q --profile checked -p ashlarkin-oracle --test second_opinion -- --cases 20000

c-tests: setup
	@echo '== oracle: called from C'
	@cargo build -q --release -p ashlarkin-oracle
	@mkdir -p host/target/c
	@gcc -std=c11 -Wall -Wextra -Werror oracle/tests/c/oracle.c $(BUILT)/libashlarkin_oracle.a -lpthread -ldl -lm -o host/target/c/oracle
	@host/target/c/oracle

coverage:
	@tools/coverage

bench: host
	@tools/setup bench
	@$(BUILT)/ashlarkin bench --seconds 60 --save host/target/bench.json
	@tools/plot host/target/bench.json docs/growth.png

picture:
	@tools/setup picture
	@tools/crates
