# Yokepear. Each target works from a fresh checkout; the toolchain's command `rt` must be on the PATH.
.PHONY: test prove phrases lib install host compare bench clean
# What proves runs several checks at a time, in one folder.
.NOTPARALLEL:

# The folders too, so that a file that is gone counts as a change; but not a crate's own, where rt works.
sources := crates.txt kit.txt $(shell find crates/*/src crates/*/specs crates/*/proofs -type d -o -name '*.rt' -o -name '*.antt')

# The generated files, the gate (every proof and every must-fail edit), the host's tests and the comparison. The last line is the verdict.
test:
	bash tools/test.sh

# The proofs alone, from nothing.
prove:
	@tools/prove.sh all

# The program: answers the lines of standard input. What building it says goes to standard error.
phrases: target/bin/phrases
	@target/bin/phrases

target/bin/phrases: $(sources)
	@tools/prove.sh program phrases >&2 < /dev/null
	@touch $@

# The static library and its header, in target/yokepear.
lib: target/staticlib/libyokepear.a
	@mkdir -p target/yokepear
	@cp target/staticlib/libyokepear.a include/yokepear.h target/yokepear/
	@echo "target/yokepear has libyokepear.a and yokepear.h"

target/staticlib/libyokepear.a: $(sources)
	@tools/prove.sh library yokepear
	@touch $@

# make install PREFIX=FOLDER: the library, its header, a pkg-config file and the licences; DESTDIR stands before it, for packagers.
ifneq ($(filter install,$(MAKECMDGOALS)),)
ifeq ($(PREFIX),)
$(error make install PREFIX=FOLDER: no folder is given)
endif
endif
install: target/staticlib/libyokepear.a
	@PREFIX='$(PREFIX)' DESTDIR='$(DESTDIR)' tools/install.sh

# The host's tests alone: C calls with guarded buffers.
host: lib
	host/test.sh

# Every answer against the published Rust, where its sources are at hand.
compare: lib
	compare/run.sh

# Time and instructions per phrase byte, beside the Rust and a plain C speller.
bench: lib
	bench/run.sh

# With what rt keeps of its checks.
clean:
	rm -rf target crates/*/out
