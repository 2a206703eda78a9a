# make run       proves and builds everything, writes the margin sheets of two built-in plans, carries a caption over a simulated link and
#                shows the last page of a panel
# make test      the gate: every proof, every wrong program refused, every stored run, the C host's tests
# make bench     the library beside plain C; make bench EXPERT=FILE also beside the decoder expert_decode8 in that C file
# make install   the library, its header and pkg-config file, the program margin and its man page, below PREFIX
# make uninstall takes them away again
SHELL = /bin/bash
.SHELLFLAGS = -o pipefail -c

PREFIX = /usr/local
DESTDIR =
CC = gcc
CFLAGS = -std=c11 -Wall -Wextra -Werror -O2
SANITIZED = -std=c11 -Wall -Wextra -Werror -O1 -g -fsanitize=address,undefined -fno-sanitize-recover=all

BUILD = target/host
LIBRARY = $(BUILD)/liblembikat.a
MARGIN = crates/margin/out/margin
VECTORS = crates/vectors/out/vectors
SOURCES = crates.txt $(shell find crates -name out -prune -o \( -name '*.rt' -o -name '*.antt' \) -print)
AT = $(DESTDIR)$(PREFIX)

.NOTPARALLEL:
.PHONY: run test bench host install uninstall clean

run: target/proved $(MARGIN) $(VECTORS) $(BUILD)/caption_link $(BUILD)/panel
	@echo
	@echo "16 carriers, 8 time slots: the margin sheet of the example host's plan; up to 5 flipped bits in a block of 128 are mended"
	@$(MARGIN) <tests/carrier-plan.bin
	@echo
	@echo "equal sides: the margin sheet of the square plan with the house code; up to 3 flipped bits in a block of 64 are mended"
	@$(MARGIN) <tests/square-plan.bin
	@echo
	@$(BUILD)/caption_link
	@echo
	@echo "the last page of the panel, which at a terminal is redrawn after every sweep: $(BUILD)/panel"
	@$(BUILD)/panel | tail -n 4

test:
	bash .ci/run

# the C host's programs
host: $(BUILD)/caption_link $(BUILD)/panel $(BUILD)/test_vectors $(BUILD)/test_stack $(BUILD)/bench

ifdef EXPERT
bench: $(BUILD)/bench_expert
	$(BUILD)/bench_expert
else
bench: $(BUILD)/bench
	$(BUILD)/bench
endif

# Every crate is proved. Of what the prover says, a line a crate is shown, and all of it where it fails.
SHOWN = { grep --line-buffered '^crate ' || true; }
target/proved: $(SOURCES)
	@mkdir -p target
	@echo "proving every crate, which takes some minutes; all that the prover says is in target/prove.log"
	@rt all check 2>&1 | tee target/prove.log | $(SHOWN) || { cat target/prove.log; exit 1; }
	@touch $@

# A program is built by rt run, which proves it and the crates below it first, and leaves it in its folder out/.
$(MARGIN) $(VECTORS): $(SOURCES)
	@mkdir -p target
	@(cd crates/$(@F) && rt run <stdin 2>&1 >/dev/null) | tee target/$(@F).log | $(SHOWN) || { cat target/$(@F).log; exit 1; }
	@touch $@

# The archive is built only of what is proved. Each function in it begins at a multiple of 64, so that its speed does not depend on where a
# host's linker puts it.
$(LIBRARY): $(SOURCES)
	@mkdir -p $(BUILD)
	@(cd crates/c_api && rt lib 2>&1) | tee $(BUILD)/prove.log | $(SHOWN) || { cat $(BUILD)/prove.log; exit 1; }
	objcopy --set-section-alignment '.text*=64' crates/c_api/out/libc_api.a $@

$(BUILD)/caption_link: host/caption_link.c host/carriers.h include/lembikat.h $(LIBRARY)
	$(CC) $(CFLAGS) -Iinclude host/caption_link.c $(LIBRARY) -o $@

$(BUILD)/panel: host/panel.c host/carriers.h include/lembikat.h $(LIBRARY)
	$(CC) $(CFLAGS) -Iinclude host/panel.c $(LIBRARY) -o $@

$(BUILD)/test_vectors: host/test_vectors.c host/reference.c host/reference.h include/lembikat.h $(LIBRARY)
	$(CC) $(SANITIZED) -Iinclude host/test_vectors.c host/reference.c $(LIBRARY) -o $@

$(BUILD)/test_stack: host/test_stack.c include/lembikat.h $(LIBRARY)
	$(CC) $(CFLAGS) -Iinclude -pthread host/test_stack.c $(LIBRARY) -o $@

# The baseline is compiled apart from its callers, and its functions begin at multiples of 64, as the library's do.
$(BUILD)/plain.o: bench/plain.c bench/plain.h
	@mkdir -p $(BUILD)
	$(CC) -std=c11 -Wall -Wextra -Werror -O3 -falign-functions=64 -c bench/plain.c -o $@

$(BUILD)/bench: bench/bench.c bench/plain.h include/lembikat.h $(BUILD)/plain.o $(LIBRARY)
	$(CC) $(CFLAGS) -Iinclude bench/bench.c $(BUILD)/plain.o $(LIBRARY) -o $@

$(BUILD)/bench_expert: bench/bench.c bench/plain.h include/lembikat.h $(BUILD)/plain.o $(LIBRARY) $(EXPERT)
	$(CC) -std=gnu11 -O3 -c $(EXPERT) -o $(BUILD)/expert.o
	$(CC) $(CFLAGS) -DEXPERT -Iinclude bench/bench.c $(BUILD)/plain.o $(BUILD)/expert.o $(LIBRARY) -o $@

install: $(LIBRARY) $(MARGIN)
	install -d $(AT)/lib/pkgconfig $(AT)/include $(AT)/bin $(AT)/share/man/man1
	install -m 644 $(LIBRARY) $(AT)/lib/liblembikat.a
	install -m 644 include/lembikat.h $(AT)/include/lembikat.h
	sed 's|@PREFIX@|$(PREFIX)|' lembikat.pc.in >$(AT)/lib/pkgconfig/lembikat.pc
	chmod 644 $(AT)/lib/pkgconfig/lembikat.pc
	install -m 755 $(MARGIN) $(AT)/bin/margin
	install -m 644 man/margin.1 $(AT)/share/man/man1/margin.1

uninstall:
	rm -f $(AT)/lib/liblembikat.a $(AT)/include/lembikat.h $(AT)/lib/pkgconfig/lembikat.pc $(AT)/bin/margin $(AT)/share/man/man1/margin.1

clean:
	rm -rf target crates/*/out
