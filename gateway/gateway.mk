# The gateway and the library for C; included by the top Makefile.
#
# make lib                   build/libturretnail.a, proved
# make gateway               build/gateway
# make gate                  build/gate, which logs in at a gateway and enrols cows
# make gates                 build/gates, which edits the key table's file
# make run                   the gateway with the sample table gateway/gates.psk; ARGUMENTS='--rule tell' adds options
# make enrol                 the gate, as gate7 of that table, at SERVER=127.0.0.1:4433 with LINE='cow 212'
# make install PREFIX=DIR    library, header, pkg-config file, gateway, gate and gates (DESTDIR is put in front)
# make uninstall PREFIX=DIR  removes them
# make header-test           the header against the exports, and a program over the installed library in C and C++
# make interop               the gateway under sanitizers against other clients, and the gate against other servers
# make gates-test            gates under sanitizers: as a user runs it, killed at every step, with each call failing, on a full disk

PREFIX ?= /usr/local
VERSION := $(shell sed -n 's/^\#define TN_VERSION "\(.*\)"/\1/p' include/turretnail.h)
LIBRARY ?= build/libturretnail.a
GATEWAY_FLAGS := -std=c11 -D_GNU_SOURCE -Wall -Wextra -Wconversion -Wshadow -Werror -Iinclude
SANITIZED := -O1 -g -fsanitize=address,undefined -fno-sanitize-recover=all
# What the gateway and the gate have in common: records, the key table's file, the command line.
SHARED_PARTS := $(addprefix gateway/,channel.c records.c entropy.c table.c table_text.c arguments.c streams.c alerts.c clock.c wipe.c)
GATEWAY_PARTS := $(SHARED_PARTS) $(addprefix gateway/,connection.c settings.c options.c report.c log.c places.c listener.c client.c rest.c work.c)
GATE := $(SHARED_PARTS) $(addprefix gateway/,gate.c gate_options.c gate_session.c dial.c)
GATES := $(addprefix gateway/,gates.c table_file.c table_text.c entropy.c streams.c wipe.c)
GATES_CALLS := open openat realpath lstat fstat flock read write fchown fchmod fgetxattr fsetxattr fremovexattr fsync renameat unlinkat close getrandom \
	setrlimit prctl
GATES_WRAPPED := $(foreach c,$(GATES_CALLS),-Wl,--wrap=$(c))
GATEWAY_HEADERS := $(wildcard gateway/*.h) include/turretnail.h
PROVED := $(shell find crates -name out -prune -o \( -name '*.rt' -o -name '*.antt' \) -print) crates.txt
INSTALLED := $(CURDIR)/build/installed

.PHONY: lib gateway gate gates gates-test run enrol install uninstall header-test interop needs-build needs-test

lib: $(LIBRARY)
gateway: build/gateway
gate: build/gate
gates: build/gates

build/libturretnail.a: $(PROVED)
	@mkdir -p build
	@gateway/prove
	@cp crates/c_interface_c/out/libc_interface_c.a $@

needs-build:
	@gateway/needs build

needs-test:
	@gateway/needs test

build/gateway: gateway/gateway.c $(GATEWAY_PARTS) $(GATEWAY_HEADERS) $(LIBRARY) | needs-build
	@mkdir -p build
	@$(CC) $(GATEWAY_FLAGS) -O2 $(filter %.c,$^) $(LIBRARY) -lcrypto -o $@

build/gateway-sanitized: gateway/gateway.c $(GATEWAY_PARTS) $(GATEWAY_HEADERS) $(LIBRARY) | needs-build
	@mkdir -p build
	@$(CC) $(GATEWAY_FLAGS) $(SANITIZED) $(filter %.c,$^) $(LIBRARY) -lcrypto -o $@

# The same without what clears keys, for the test that looks for them: it must find them there.
build/gateway-careless: gateway/gateway.c $(filter-out gateway/wipe.c,$(GATEWAY_PARTS)) tests/no_wipe.c $(GATEWAY_HEADERS) $(LIBRARY) | needs-build
	@mkdir -p build
	@$(CC) $(GATEWAY_FLAGS) -O2 $(filter %.c,$^) $(LIBRARY) -lcrypto -o $@

build/gate: $(GATE) $(GATEWAY_HEADERS) $(LIBRARY) | needs-build
	@mkdir -p build
	@$(CC) $(GATEWAY_FLAGS) -O2 $(filter %.c,$^) $(LIBRARY) -lcrypto -o $@

build/gate-sanitized: $(GATE) $(GATEWAY_HEADERS) $(LIBRARY) | needs-build
	@mkdir -p build
	@$(CC) $(GATEWAY_FLAGS) $(SANITIZED) $(filter %.c,$^) $(LIBRARY) -lcrypto -o $@

# Without what clears keys, as above.
build/gate-careless: $(filter-out gateway/wipe.c,$(GATE)) tests/no_wipe.c tests/gate_careless.c $(GATEWAY_HEADERS) $(LIBRARY) | needs-build
	@mkdir -p build
	@$(CC) $(GATEWAY_FLAGS) -O2 -Wl,--wrap=OPENSSL_cleanse $(filter %.c,$^) $(LIBRARY) -lcrypto -o $@

build/gates: $(GATES) $(GATEWAY_HEADERS) $(LIBRARY) | needs-build
	@mkdir -p build
	@$(CC) $(GATEWAY_FLAGS) -O2 $(filter %.c,$^) $(LIBRARY) -o $@

build/gates-sanitized: $(GATES) $(GATEWAY_HEADERS) $(LIBRARY) | needs-build
	@mkdir -p build
	@$(CC) $(GATEWAY_FLAGS) $(SANITIZED) $(filter %.c,$^) $(LIBRARY) -o $@

# Every call to the system can be made to fail, or the last; and a lock is waited for a second only.
build/gates-faults: $(GATES) tests/gates_faults.c $(GATEWAY_HEADERS) $(LIBRARY) | needs-build
	@mkdir -p build
	@$(CC) $(GATEWAY_FLAGS) $(SANITIZED) -DLOCK_SECONDS=1 $(GATES_WRAPPED) $(filter %.c,$^) $(LIBRARY) -o $@

# Without what clears keys, as above.
build/gates-careless: $(filter-out gateway/wipe.c,$(GATES)) tests/no_wipe.c tests/gates_careless.c $(GATEWAY_HEADERS) $(LIBRARY) | needs-build
	@mkdir -p build
	@$(CC) $(GATEWAY_FLAGS) -O2 -Wl,--wrap=explicit_bzero $(filter %.c,$^) $(LIBRARY) -o $@

build/records-test: tests/records.c gateway/records.c gateway/entropy.c $(GATEWAY_HEADERS) | needs-build
	@mkdir -p build
	@$(CC) $(GATEWAY_FLAGS) $(SANITIZED) $(filter %.c,$^) -lcrypto -o $@

build/rest-test: tests/rest.c gateway/rest.c gateway/clock.c $(GATEWAY_HEADERS) | needs-build
	@mkdir -p build
	@$(CC) $(GATEWAY_FLAGS) $(SANITIZED) $(filter %.c,$^) -o $@

build/records-time: tests/records_time.c bench/records_time.c bench/measure.c gateway/records.c gateway/entropy.c $(GATEWAY_HEADERS) bench/records_time.h | needs-build
	@mkdir -p build
	@$(CC) $(GATEWAY_FLAGS) -O2 -Igateway $(filter %.c,$^) -lcrypto -o $@

build/mbedtls-%: tests/mbedtls_%.c tests/mbedtls_side.c tests/mbedtls_side.h | needs-test
	@mkdir -p build
	@$(CC) $(GATEWAY_FLAGS) -O2 $(filter %.c,$^) -lmbedtls -lmbedx509 -lmbedcrypto -o $@

# What may be missing is asked for before the minutes of proof.
run: needs-build build/gateway
	@gateway/run build/gateway $(ARGUMENTS)

SERVER ?= 127.0.0.1:4433
LINE ?= cow 212

enrol: needs-build build/gate
	@build/gate --keys gateway/gates.psk --identity gate7 $(SERVER) '$(LINE)'

INSTALL_TO := $(DESTDIR)$(PREFIX)

install: $(LIBRARY) build/gateway build/gate build/gates
	@install -d $(INSTALL_TO)/lib/pkgconfig $(INSTALL_TO)/include $(INSTALL_TO)/bin
	@install -m 755 build/gateway $(INSTALL_TO)/bin/turretnail-gateway
	@install -m 755 build/gate $(INSTALL_TO)/bin/turretnail-gate
	@install -m 755 build/gates $(INSTALL_TO)/bin/turretnail-gates
	@install -m 644 $(LIBRARY) $(INSTALL_TO)/lib/libturretnail.a
	@install -m 644 include/turretnail.h $(INSTALL_TO)/include/turretnail.h
	@sed -e 's|@PREFIX@|$(PREFIX)|' -e 's|@VERSION@|$(VERSION)|' gateway/turretnail.pc.in > $(INSTALL_TO)/lib/pkgconfig/turretnail.pc

uninstall:
	@rm -f $(addprefix $(INSTALL_TO)/,lib/libturretnail.a include/turretnail.h lib/pkgconfig/turretnail.pc $(addprefix bin/turretnail-,gateway gate gates))

header-test: $(LIBRARY) | needs-test
	@tests/header $(LIBRARY)
	@$(MAKE) --no-print-directory -f $(firstword $(MAKEFILE_LIST)) install PREFIX=$(INSTALLED) DESTDIR= LIBRARY=$(LIBRARY)
	@tests/installed $(INSTALLED)

interop: build/gateway build/gateway-careless build/gateway-sanitized build/gate build/gate-careless build/gate-sanitized build/records-test build/records-time \
	build/rest-test build/mbedtls-client build/mbedtls-server | needs-test
	@build/records-test
	@build/records-time
	@build/rest-test
	@python3 tests/keys_in_memory.py build/gateway build/gateway-careless build/gate build/gate-careless
	@python3 tests/hide_in_time.py build/gateway
	@python3 tests/interop build/gateway-sanitized build/mbedtls-client build/gateway build/gate-sanitized build/mbedtls-server

gates-test: build/gateway-sanitized build/gates build/gates-sanitized build/gates-faults build/gates-careless | needs-test
	@python3 tests/gates build/gateway-sanitized build/gates build/gates-sanitized build/gates-faults build/gates-careless
