# `make run` lists a real part and draws its page; `make test` is the gate. `make help` names the rest.
.PHONY: run test check lib listing page elements cut replay soak bench lines sheets points help clean

# what a failed recipe leaves is not a product
.DELETE_ON_ERROR:

# text and rules on one sheet, by a composer outside this project
SHOWN = tests/real/c-table-p01o01x01.part
PART ?= $(SHOWN)

run:
	@$(MAKE) -s page PART=$(SHOWN)
	@head -n 9 build/page.listing && echo '..' && tail -n 1 build/page.listing

test:
	bash .ci/run

check:
	rt all check

# the sources of some crates, and their folders, which are newer where a file is gone
code = $(shell find $(addprefix crates/,$(1)) -mindepth 1 -name out -prune -o \( -type d -o -name '*.rt' -o -name '*.antt' \) -print) crates.txt

# document 01's "Sheets to try", each row through the interpreter
sheets: target/bin/sheets
	@. tools/x86_64.sh && $$LOAD target/bin/sheets
target/bin/sheets: $(call code,part sheets)
	@tools/prove run sheets

# build/libhalviruso.a: the proved library for C, C++ and Rust hosts
lib: build/libhalviruso.a
build/libhalviruso.a: $(call code,part hub host halviruso) tools/archive tools/prove
	@tools/archive

# target/bin/listing, at an increment of 180, and target/bin/listing240: the listing programs
listing: target/bin/listing target/bin/listing240
target/bin/listing target/bin/listing240 &: $(call code,part lister listing listing240)
	@tools/prove run listing listing240

# eight lines to the inch
INCREMENT = 180

# a tenant's own widths, in a file; every width is 144 without it
WIDTHS =
OWN = $(if $(WIDTHS),--widths "$(WIDTHS)")

# build/page.svg: the sheet as the listing of a part at INCREMENT, 180 or 240, has it; a refusal is marked on the part's bytes
# with WIDTHS, at any INCREMENT: what the printer of examples/drain.c read of a job with these widths, of a part that is too much for one area, too
ifeq ($(WIDTHS),)
page:
	@mkdir -p build && rm -f build/page.listing build/page.svg
	@$(MAKE) -s listing
	@tools/list '$(INCREMENT)' < "$(PART)" > build/page.new
	@mv build/page.new build/page.listing
	@python3 tools/page build/page.listing --increment '$(INCREMENT)' --part "$(PART)" --output build/page.svg
	@echo "build/page.svg shows $(PART) at an increment of $(INCREMENT)"
else
page:
	@mkdir -p build && rm -f build/page.listing build/page.svg
	@$(MAKE) -s cut
	@$(MAKE) -s build/drain
	@. tools/x86_64.sh && $$RUN build/drain -w "$(WIDTHS)" -i '$(INCREMENT)' build/pieces/*.part > build/page.new
	@mv build/page.new build/page.listing
	@python3 tools/page build/page.listing --widths "$(WIDTHS)" --part "$(PART)" --output build/page.svg
	@echo "build/page.svg shows $(PART) with the widths of $(WIDTHS), as a printer read it"
endif

# build/drain: the example of a host that drains its area
build/drain: $(addprefix examples/,drain.c files.h meaning.h sheet.h) include/halviruso.h build/libhalviruso.a
	@. tools/x86_64.sh && $$CC -std=c11 -O2 $${RUN:+-static} -Wall -Wextra -Iinclude -o $@ $< build/libhalviruso.a

# a part as its elements, by what the library answers for each
elements:
	@tools/library/build
	@. tools/x86_64.sh && python3 tools/elements --run "$$RUN" --increment '$(INCREMENT)' $(OWN) "$(PART)"

# build/pieces: a part, cut between elements into parts that an area takes
cut:
	@rm -rf build/pieces
	@tools/library/build
	@. tools/x86_64.sh && python3 tools/cut --run "$$RUN" --increment '$(INCREMENT)' $(OWN) --output build/pieces "$(PART)"

# build/replay: replay scripts on the proved library; build/replay --peer: on the second implementation
replay:
	@replay/build

# compares the two for SECONDS from a new seed, which it prints; SEED=s goes on from that one instead
SECONDS = 60
soak: replay
	@cargo build --quiet --offline --release --target-dir build/cargo --manifest-path tests/compare/Cargo.toml
	@build/cargo/release/compare --seconds '$(SECONDS)' $(if $(SEED),--seed '$(SEED)')

# times beside the second implementation's and plain C's; where the archive can't run, of the library compiled for this processor
HERE = $(if $(filter x86_64,$(shell uname -m)),,build/here/libhalviruso.a)
build/here/libhalviruso.a: build/libhalviruso.a bench/here bench/here.py
	@bench/here
bench: lib $(HERE)
	@cargo build --quiet --offline --release --target-dir build/cargo --manifest-path bench/Cargo.toml
	@build/cargo/release/bench $(BENCH)

# one-point changes to the rule book, each of which its rows must refuse
points:
	python3 tests/points/points.py $(POINTS)

# the counts in docs/READING.md, after files have changed
lines:
	tools/lines docs/READING.md

help:
	@echo 'make run                lists a real part and draws its page, build/page.svg'
	@echo 'make test               the gate: every proof, every wrong program refused, every test'
	@echo 'make check              every proof once'
	@echo 'make sheets             the table of "Sheets to try", by the compiled interpreter'
	@echo 'make points             one-point changes to the rule book: its rows refuse each; POINTS=Ranges tries one file of it'
	@echo 'make lib                build/libhalviruso.a, for hosts in C, C++ and Rust'
	@echo 'make listing            target/bin/listing, and target/bin/listing240 for an increment of 240'
	@echo 'make page PART=file     build/page.svg, the sheet of a part; INCREMENT=240 for that increment'
	@echo '  .. WIDTHS=file        the same of a job with these widths, which is drained: of a part of any length, at any increment'
	@echo 'make cut PART=file      build/pieces, the part cut into parts that the area takes; INCREMENT=n and WIDTHS=file as for elements'
	@echo 'make replay             build/replay, which runs scripts of requests: docs/REPLAY.md'
	@echo 'make soak SECONDS=n     compares library and second implementation for n seconds from a new seed'
	@echo 'make bench              times beside the second implementation and plain C'
	@echo 'make elements PART=file the elements of a part; INCREMENT=n for another increment than 180, WIDTHS=file for other widths than 144'

clean:
	rm -rf target build crates/*/out
