# The README's two commands, and two more.
.PHONY: run test fuzz bench

# The log that `make run` replays.
LOG = examples/worked.log

# For how long `make fuzz` runs.
SECONDS = 60

# Logs for `make bench`, with blanks between, and a program that it times beside the library over them.
LOGS =
ANCHOR =

# What the archive and the program are made of.
SOURCES := crates.txt $(shell find crates \( -name must-fail -o -name out \) -prune -o -type f -print)

RUN = cargo run --release --quiet --offline --locked --manifest-path rust/Cargo.toml

# Proves and builds the program where that is not done yet, and says so as it goes; then replays the log.
run:
	@tools/prove nscc
	@tools/nscc -- "$(LOG)"

# Proves every crate of crates.txt, tries every must-fail edit and runs every program; then the tests from Rust and C over what was proved.
# The last line is 'N passed, 0 failed' where all is well; anything red is red.
test:
	@tools/test

# Random cases against the model for so many seconds; a failure prints its seed and the shortest log that still fails.
fuzz: target/lib/libnscc.a target/bin/nscc
	@$(RUN) -p differential --bin fuzz -- $(SECONDS)

# What the library costs beside the model, as a table, on x86-64, for which alone it is compiled.
# With LOGS="a.log b.log" these are replayed instead, a line each: name, records, nanoseconds a record, FNV-1a sum of all answers.
# With ANCHOR=program too, `program time LOG` is run in turn with ours, and the ratio printed; sums that differ are an error.
bench: target/lib/libnscc.a
	@tools/native-archive target/native >target/native.log 2>&1 || { cat target/native.log >&2; exit 1; }
	@NSCC_ARCHIVE_DIR=$(CURDIR)/target/native $(RUN) -p bench -- $(if $(ANCHOR),--anchor "$(ANCHOR)") $(LOGS)

target/lib/libnscc.a: $(SOURCES)
	@tools/library

target/bin/nscc: $(SOURCES)
	@tools/prove nscc
