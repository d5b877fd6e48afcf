# `make run` runs the program on a schedule, `make play` plays it in words, `make picture` draws it; `make test` is the whole gate; `make edits` tries the edits that
# the gate leaves out; `make library` writes the library for C and Rust; `make examples` runs the hosts of examples/; `make bench` compares speeds; `make soak`
# compares for longer.
SHELL := /bin/bash
export SCHEDULE TEXT OUT TITLE ALL

.PHONY: run play picture test edits library examples pictures bench soak

# SCHEDULE=file names a schedule as bytes, TEXT=file one as text; README's worked schedule if neither is named. Lines of what is proved go to standard error.
run:
	@scripts/show run

# Each record in words, and what each process holds; ALL=1 shows every process after every record.
play:
	@scripts/show play

# The space-time diagram, in OUT (target/picture.svg), with TITLE.
picture:
	@scripts/show picture

# The last line is the gate's verdict.
test:
	@scripts/gate

edits:
	@scripts/edits

# The proved library for Rust and C, target/staticlib/libgerzulan.a: the exported calls of the three crates in one archive.
# It is made again where a source is newer.
EXPORTS := export_bench export_aggregates export_calendar
LIBRARY := target/staticlib/libgerzulan.a
library: $(LIBRARY)
	@:
$(LIBRARY): crates.txt $(shell find crates -name out -prune -o \( -name '*.rt' -o -name '*.antt' \) -print)
	@scripts/build $(EXPORTS)
	@cd target/staticlib && rm -rf objects libgerzulan.a && for crate in $(EXPORTS); do \
	mkdir -p objects/$$crate && (cd objects/$$crate && ar x ../../lib$$crate.a && for object in *; do mv "$$object" "../$$crate$${object#$$crate}"; done) || exit 1; done && \
	ar crs libgerzulan.a objects/*.o && rm -rf objects

# The hosts in C, C++ and Rust: built, run and compared.
examples: library
	@scripts/examples

# The pictures of the pages, made again.
pictures: library
	@scripts/pictures

bench: library
	@scripts/build simulate
	cd reference && cargo build --release --offline --quiet --features proved && target/release/bench

# Ten minutes of the differential test.
soak: library
	cd reference && cargo build --release --offline --quiet --features proved && target/release/soak 10
