# Two commands for a newcomer: `make demo` and `make test`. Both need the Rattle toolchain (`rt`), `rustc` and `make`, and nothing else.
SEED ?= 1
SOAK_COUNT ?= 5000000
# What the comparison asks: `drive`, or the model of document 01.
WHO ?= drive
# Its topics, the longest first.
TOPICS := sender model timer smooth write read serial receive ack vectors slips
AT_ONCE := --no-print-directory --jobs=2 --output-sync

.PHONY: demo test links oracle proved host hosts stored lamps joined cuts compare expected soak wrong

# The story of the lamps: the same packets, given to our receiver and to the Rust's.
demo:
	@tools/build lamps
	@echo '== Our receiver, proved =='
	@tools/run lamps
	@echo '== The Rust as given, the same packets =='
	@target/oracle/oracle lamps

# The tests. `rt ci` proves every crate, tries the wrong programs and runs the programs, which it leaves in crates/NAME/out/; what an earlier run on this machine
# passed, of the same files, it does not prove again. The static library, which it only proves, is then linked into hosts in C, and `drive` is asked every script of
# the comparison, two at a time. The last line is the verdict of `rt ci`, which comes only where everything held.
test: links
	@tools/told ci
	@$(MAKE) $(AT_ONCE) oracle hosts
	@$(MAKE) $(AT_ONCE) $(TOPICS:%=compare-%) stored lamps joined cuts
	@cat target/verdict

# The index of promises leads to what it names, and each promise is the one that its line takes.
links:
	@tools/links
	@tools/promises

oracle:
	@oracle/build.sh

# The program that answers scripts.
proved:
	@tools/told check drive

# Hosts in C over the static library.
host: proved
	@tools/host

# The same, where `rt ci` has just left `drive`.
hosts:
	@tools/host

# A topic of the comparison (oracle/NOTES.md).
compare-%:
	@oracle/compare.sh $(WHO) $* $(SEED)

# The stored script of `drive` has the model's answers, and so has the line of packets that `serial` reads.
stored:
	@target/oracle/oracle model answer <crates/drive/stdin | diff - crates/drive/stdout
	@target/oracle/oracle serial tell <crates/serial/stdin | diff - crates/serial/stdout
	@echo "crates/drive/stdout, crates/serial/stdout: the model's answers"

# The Rust is given the packets of `lamps` in the same order.
lamps:
	@target/oracle/oracle lamps | sed -n 's/^\(packet [^:]*\):.*/\1/p' >target/oracle/lamps.order
	@sed -n 's/^\(packet [^:]*\):.*/\1/p' crates/lamps/stdout | diff - target/oracle/lamps.order

# The model's sender and receiver, joined by a channel that loses, repeats and reorders.
joined:
	@oracle/joined.sh $(SEED) 200000

# Scripts that are cut.
cuts:
	@oracle/cuts.sh

# The comparison alone: our program, the Rust and the model.
compare: oracle proved
	@$(MAKE) $(AT_ONCE) $(TOPICS:%=compare-%) stored lamps cuts

# The model in the place of our program, with nothing proved.
expected: oracle
	@$(MAKE) $(AT_ONCE) WHO=model $(TOPICS:%=compare-%) stored lamps joined

# Longer: a million moves of a sender and a receiver that are joined; then rounds of whole runs and of hostile calls with seeds of their own, until
# SOAK_COUNT calls were compared.
soak: oracle proved
	@oracle/joined.sh $(SEED) 1000000
	@oracle/soak.sh $(SEED) $(SOAK_COUNT)

# The wrong programs that the gate leaves out for its time (D47).
wrong:
	@tools/wrong
