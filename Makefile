# make run    the gateway on 127.0.0.1:4433, over the proved library (gateway/gateway.mk has the targets of the C side)
# make bench  speed against OpenSSL, mbed TLS and GnuTLS, as ratios; docs/BENCHMARKS.md has the figures
# make test   every test: outside vectors made again by an independent program, every proof, every must-fail edit
#             and every program (rt ci), the edits in tried/, then the C side; the last line is rt ci's
#             'N passed, 0 failed'

SHELL := /bin/bash
.SHELLFLAGS := -eu -o pipefail -c

.PHONY: test vectors claims proofs

include gateway/gateway.mk
include bench/bench.mk
include tests/fuzz/fuzz.mk

# The library is made before the edits are tried, which start from what that proved.
test: vectors claims
	@$(MAKE) --no-print-directory proofs
	@$(MAKE) --no-print-directory lib
	@tests/edits
	@$(MAKE) --no-print-directory header-test interop gates-test differential planted
	@tail -n 1 build/ci.log

# rt ci, which a bad must-fail edit does not fail: it is counted in the line 'rt: ok', and fails here.
proofs:
	@mkdir -p build
	@rt ci | tee build/ci.log
	@grep -q '^rt: ok;' build/ci.log
	@! grep -E '^rt: ok;.*, [0-9]+ bad' build/ci.log >/dev/null || { echo 'make proofs: rt ci calls a must-fail edit bad' >&2; exit 1; }

vectors:
	@tests/vectors

claims:
	@tests/claims
