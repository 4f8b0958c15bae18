# `make run` builds the proved library and runs the panel's short shift. `make test` passes everything. `make install` puts header,
# library and pkg-config file in place. `make bench` and `make bench-foundation` measure.
.PHONY: test bench-foundation
.DEFAULT_GOAL = run

include host/host.mk

test:
	@tools/test

# The bytes under the store first, then the calls.
bench: bench-foundation

bench-foundation:
	@echo '#include <openssl/evp.h>' | $(CC) -E - >/dev/null 2>&1 || { echo "OpenSSL's headers are missing: apt-get install -y libssl-dev" >&2; exit 1; }
	@mkdir -p target && (cd crates/bench_probe && rt lib) >target/bench_probe.out 2>&1 || { cat target/bench_probe.out; exit 1; }
	@$(CC) -O2 -Wall -Wextra -o target/bench-foundation bench/foundation.c crates/bench_probe/out/libbench_probe.a -lcrypto
	@target/bench-foundation
