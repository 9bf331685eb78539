.PHONY: build test check-one quick test-all test-batched test-by-turns bench bench-serve bench-replicas bench-large bench-memory bench-words bench-growth instructions instructions-serve instructions-replicas

# The gate that `make test` runs: test-all, test-batched, or test-by-turns.
GATE = test-by-turns

# Proves and builds the program, where its sources are newer.
build:
	./minired </dev/null

test: $(GATE)

# Every proof and test of the crates and each edit by itself, by `rt ci`, and then the tests of the built program.
test-all:
	python3 -m tests.gate.run

# The same, with the edits of different functions of a crate tried in one check.
test-batched:
	python3 -m tests.gate.run --batched

# The same, without the edits of crates that are the same as they landed, but for a tenth of these by turns, and 400 edits at most.
test-by-turns:
	python3 -m tests.gate.run --by-turns

# A folder of tests, a file, a class of it or a test, by the name that its failure has: T=tests.commands.test_strings.Strings. For what
# tests/gate and tests/pages test nothing is built.
check-one: $(if $(filter-out tests.gate% tests.pages%,$(T)),build)
	$(if $(T),,$(error say which: make check-one T=tests.commands))
	python3 -m unittest $(if $(wildcard $(subst .,/,$(T))/.),discover -t . $(subst .,/,$(T)),$(T)) --verbose

# The same tests on the program with nothing proved of it, compiled first where a source is newer, in a minute or two: T=tests.commands.test_strings.
quick:
	python3 tools/quick.py $(T)

# Processor time a request and peak memory, beside redis-server where it is installed. RUNS="SETEX tick" chooses runs by words of their
# names; with ROUNDS=5 each is made five times, and the least told.
bench:
	python3 -m bench.bench $(RUNS)

# What a request costs `serve`, beside redis-server over TCP, as a table and a plot.
bench-serve:
	python3 -m bench.serving --plot docs/serving.svg $(RUNS)

# What replicas cost, beside redis-server with as many: SETs, a copy of a million keys, a part, a promotion.
bench-replicas:
	python3 -m bench.replicating $(RUNS)

# What single requests on large collections and with large words cost `serve`, beside redis-server. RUNS="words reply" chooses among
# collections, words, reply and rewriting.
bench-large:
	python3 -m bench.large $(RUNS)

# What a key of each kind and size takes of the memory of `serve`, beside redis-server. RUNS="hash list" chooses rows by words of their names.
bench-memory:
	python3 -m bench.memory $(RUNS)

# The most memory that `serve` has behind SET and GET of words of 16 to 512 MiB, and what is left, beside redis-server.
bench-words:
	python3 -m bench.words

# What each command costs `serve` on collections of three sizes, beside redis-server. RUNS="LREM DEL" chooses rows by words of their names.
bench-growth:
	python3 -m bench.growth $(RUNS)

# The runs of `make bench` by the instructions that they take, under callgrind, which must be installed.
instructions:
	python3 -m bench.instructions $(RUNS)

# What a request costs `serve` by instructions, beside redis-server over TCP. RUNS="LPUSH HSET" chooses rows by words of their names.
instructions-serve:
	python3 -m bench.counted $(RUNS)

# What a master takes for requests with no replica and with three, and for PSYNC, by instructions.
instructions-replicas:
	python3 -m bench.fanout $(RUNS)
