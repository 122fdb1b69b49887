# The benchmark; included by the top Makefile after gateway/gateway.mk, which says where the library is.
#
# make bench                 every case; CASES='hash logins' only these
# make bench BEFORE=ARCHIVE  compares with the archive of an earlier library in the same run: the hash's time, the stack and the archive's size. The bench is
#                            linked with it a second time, so that it has to have the calls of today's header, with their parameters: none from before 0.3,
#                            which the program tests when it starts. bench/size and bench/frames link nothing of it, and take an older one too
# make bench BEFORE=REVISION the same with the library of a git revision, which is proved first, once for each commit: some minutes. The kit has to be
#                            the revision's: none from before docs/PORT.md can be proved with today's

BENCH_FLAGS := -std=c11 -D_GNU_SOURCE -Wall -Wextra -Werror -O2 -Iinclude -Igateway
BENCH_PARTS := $(filter-out bench/footprint.c,$(wildcard bench/*.c)) $(addprefix gateway/,connection.c gate_session.c channel.c records.c entropy.c wipe.c)
BENCH_HEADERS := $(wildcard bench/*.h) $(wildcard gateway/*.h) include/turretnail.h
BENCH_PACKAGES := libmbedtls-dev libssl-dev libgnutls28-dev $(if $(shell command -v python3),,python3)
BENCH_LIBRARIES := -lmbedtls -lmbedx509 -lmbedcrypto -lgnutls -lssl -lcrypto -lpthread

ifneq ($(BEFORE),)
ifeq ($(shell test -f '$(BEFORE)' && echo file),file)
BEFORE_LIBRARY := $(BEFORE)
else
BEFORE_COMMIT := $(shell git rev-parse --verify --quiet '$(BEFORE)^{commit}')
$(if $(BEFORE_COMMIT),,$(error BEFORE=$(BEFORE) is neither a file nor a git revision))
BEFORE_LIBRARY := build/before/$(BEFORE_COMMIT).a
endif
BEFORE_BENCH := build/bench-before
endif

.PHONY: bench needs-bench build/bench-before

bench: build/bench $(BEFORE_BENCH)
	@$(if $(BEFORE),BENCH_BEFORE=$(BEFORE_BENCH)) build/bench $(CASES)
	@bench/size $(LIBRARY) $(BEFORE_LIBRARY)
	@bench/frames $(LIBRARY) $(BEFORE_LIBRARY)

needs-bench: needs-build
	@dpkg -s $(BENCH_PACKAGES) >/dev/null 2>&1 || { echo "installing $(BENCH_PACKAGES)"; apt-get update -q >/dev/null && \
		DEBIAN_FRONTEND=noninteractive apt-get install -qy --no-install-recommends $(BENCH_PACKAGES) >/dev/null; }

build/bench: $(BENCH_PARTS) $(BENCH_HEADERS) $(LIBRARY) | needs-bench
	@mkdir -p build
	@$(CC) $(BENCH_FLAGS) $(BENCH_PARTS) $(LIBRARY) $(BENCH_LIBRARIES) -o $@

# Linked anew each time: another archive may be older than the program.
build/bench-before: $(BENCH_PARTS) $(BENCH_HEADERS) $(BEFORE_LIBRARY) | needs-bench
	@mkdir -p build
	@$(CC) $(BENCH_FLAGS) $(BENCH_PARTS) $(BEFORE_LIBRARY) $(BENCH_LIBRARIES) -o $@

# A commit's library, built by its own rules in a tree of its own: the options, LIBRARY and BEFORE of this make are not handed on. The tree stands outside the
# repository, where rt would count its crates as lost files.
build/before/%.a:
	@mkdir -p build/before
	@tree=$$(mktemp -d); trap 'rm -rf "$$tree"' EXIT; git archive $* | tar -x -C "$$tree"; \
		env -u MAKEFLAGS -u LIBRARY -u BEFORE make --no-print-directory -C "$$tree" lib; cp "$$tree/build/libturretnail.a" $@
