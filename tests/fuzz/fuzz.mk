# The library against independent models, and under a fuzzer; included by the top Makefile.
#
# make differential          every export on drawn inputs, about a minute; FUZZ_ROUNDS=1 FUZZ_SEED=7 tries one round again
# make planted               the test of that test: each fault of tests/fuzz/planted.py has to be found
# make fuzz                  libFuzzer for FUZZ_SECONDS (600) on series of calls; what it finds is kept in build/fuzz/found
# make fuzz-replay           the fuzzer's seeds and all that it kept, once, without libFuzzer; build/fuzz/replay is also a program for AFL++

LIBRARY ?= build/libturretnail.a
FUZZ_SECONDS ?= 600
FUZZ_ROUNDS ?=
FUZZ_SEED ?=
FUZZ_CLANG ?= clang
FUZZ_FLAGS := -std=c11 -D_GNU_SOURCE -Wall -Wextra -Wconversion -Wshadow -Werror -g -O1 -fno-sanitize-recover=all -Iinclude
FUZZ_MODELS := $(addprefix tests/fuzz/,lent.c drawn.c model_secrets.c model_layouts.c model_table.c model_ends.c model_server.c model_client.c model_records.c \
	layouts.c table.c ends.c server.c client.c records.c)
FUZZ_HEADERS := $(wildcard tests/fuzz/*.h) include/turretnail.h

.PHONY: differential planted fuzz fuzz-replay

build/differential: tests/fuzz/main.c tests/fuzz/secrets.c tests/fuzz/record_series.c $(FUZZ_MODELS) $(FUZZ_HEADERS) $(LIBRARY)
	@gateway/needs build
	@mkdir -p build
	@$(CC) $(FUZZ_FLAGS) -fsanitize=address,undefined $(filter %.c,$^) $(LIBRARY) -lcrypto -o $@

differential: build/differential
	@build/differential $(FUZZ_ROUNDS) $(FUZZ_SEED)

planted: $(LIBRARY)
	@gateway/needs build
	@python3 tests/fuzz/planted.py $(LIBRARY)

build/fuzz/target: tests/fuzz/target.c $(FUZZ_MODELS) $(FUZZ_HEADERS) $(LIBRARY)
	@gateway/needs build
	@mkdir -p build/fuzz
	@test -f "$$($(FUZZ_CLANG) -print-file-name=libclang_rt.fuzzer-$$(uname -m).a)" || \
		{ apt-get update -q && apt-get install -qy --no-install-recommends clang libclang-rt-14-dev; } >/dev/null
	@$(FUZZ_CLANG) $(FUZZ_FLAGS) -DLIBFUZZER -fsanitize=fuzzer,address,undefined $(filter %.c,$^) $(LIBRARY) -lcrypto -o $@

build/fuzz/replay: tests/fuzz/target.c $(FUZZ_MODELS) $(FUZZ_HEADERS) $(LIBRARY)
	@gateway/needs build
	@mkdir -p build/fuzz
	@$(CC) $(FUZZ_FLAGS) -fsanitize=address,undefined $(filter %.c,$^) $(LIBRARY) -lcrypto -o $@

build/fuzz/seeds: tests/fuzz/seeds.py tests/handshakes.py tests/record_sessions.py $(wildcard tests/recorded/*)
	@rm -rf $@
	@mkdir -p $@
	@python3 tests/fuzz/seeds.py $@

fuzz: build/fuzz/target build/fuzz/seeds
	@mkdir -p build/fuzz/corpus build/fuzz/found
	@build/fuzz/target -max_total_time=$(FUZZ_SECONDS) -max_len=40000 -timeout=20 -verbosity=0 -print_final_stats=1 \
		-artifact_prefix=build/fuzz/found/ build/fuzz/corpus build/fuzz/seeds

fuzz-replay: build/fuzz/replay build/fuzz/seeds
	@mkdir -p build/fuzz/corpus build/fuzz/found
	@find build/fuzz/seeds build/fuzz/corpus build/fuzz/found -type f | xargs build/fuzz/replay
