# make run        plays the sessions W5 and W6, then decodes the sample stream
# make check      daily: the proofs that changed, linters, tests, a short comparison
# make test       the gate: every proof from nothing, then the tests beside them
# make examples   plays W6 from each language that has an example, held to examples/w6.txt
# make install    header, static and shared library and pkg-config file to PREFIX=.. (DESTDIR=.. in front, to stage)
# make bench      throughput of the proved library against the second program and against C that checks nothing;
#                 with BEFORE=.. (another build's shared library) against that build instead
# make memory     the comparisons with lent memory in guarded blocks, under AddressSanitizer and under valgrind
# make soak N=..  N calls of the bus in random sessions, compared; SEED=.. for other ones
.PHONY: run check test examples install bench memory soak clean

RT = rt
PREFIX = /usr/local
N = 20000000
SEED = 11898

# The header has the version.
version := $(shell awk '$$2 ~ /^KF_VERSION_/ { printf dot $$3; dot = "." }' include/kettlefrost.h)
major := $(firstword $(subst ., ,$(version)))

name = libkettlefrost.so
archive = target/staticlib/libkettlefrost.a
shared = target/staticlib/$(name).$(version)
installed = $(DESTDIR)$(PREFIX)

# The names that a program is linked with and that it loads.
define links
ln -sf $(name).$(version) $(1)/$(name).$(major)
ln -sf $(name).$(major) $(1)/$(name)
endef

run:
	cd crates/sessions && $(RT) run
	cd crates/decode && $(RT) run -- ../../samples/mixed.bin

check:
	.ci/run quick

test:
	.ci/run

# What rt makes, in a crate's out, is made from the crates, so it is not looked at.
$(archive): crates.txt $(shell find crates -name out -prune -o -type f -print)
	cd crates/kettlefrost_c && $(RT) lib
	install -D -m 644 crates/kettlefrost_c/out/libkettlefrost_c.a $@

# The same object code. No text relocations: the archive has to be position independent. Hard links: rt refuses others in a repository.
$(shared): $(archive)
	$(CC) -shared -Wl,-soname,$(name).$(major) -Wl,-z,defs -Wl,-z,text -Wl,--whole-archive $< -Wl,--no-whole-archive -o $@
	ln -f $@ $(@D)/$(name).$(major)
	ln -f $@ $(@D)/$(name)

examples: $(archive) $(shared)
	examples/run.sh

install: $(archive) $(shared)
	install -d $(installed)/include $(installed)/lib/pkgconfig
	install -m 644 include/kettlefrost.h $(installed)/include
	install -m 644 $(archive) $(shared) $(installed)/lib
	$(call links,$(installed)/lib)
	sed 's|@PREFIX@|$(PREFIX)|; s|@VERSION@|$(version)|' kettlefrost.pc.in >$(installed)/lib/pkgconfig/kettlefrost.pc

bench: $(archive) $(shared)
	cd tests/second && cargo build --release --offline --quiet
	tests/second/target/release/bench $(if $(BEFORE),$(BEFORE) $(shared))

memory: $(archive)
	tests/memory.sh

soak: $(archive)
	cd tests/second && cargo build --release --offline --quiet
	tests/second/target/release/sessions --calls $(N) --seed $(SEED)

clean:
	rm -rf target tests/second/target bindings/rust/target crates/*/out
