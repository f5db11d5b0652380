# In a checkout, and in a release that was unpacked. Nothing here builds the program: ./dettrace build does.

PREFIX = /usr/local
DESTDIR =
release = $(wildcard VERSION)
program = $(if $(release),dettrace,crates/dettrace/out/dettrace)

.PHONY: help install uninstall dist check bench hostile soak has_program has_sources

help:
	@echo 'make install PREFIX=DIR   puts dettrace, its tools, pages and completion below DIR ($(PREFIX)); DESTDIR=ROOT'
	@echo '                          stands before it, as for packages'
	@echo 'make uninstall PREFIX=DIR takes them away'
	@echo 'make dist                 makes out/dettrace-VERSION.tar.gz, a release of this commit'
	@echo 'make check                proves all, and runs all tests (two hours)'
	@echo 'make bench                times the program that is there'
	@echo 'make hostile              tries it with 20,000 images, programs and words that mean harm'
	@echo 'make soak                 runs demonstrations and examples a thousand times beside other load, one digest each'
	@echo 'The last five are for a checkout. ./dettrace build makes the program.'

has_program:
	@test -x $(program) || { \
	    echo 'There is no program $(program), and nothing is built here: ./dettrace build makes it.' >&2; exit 1; }

has_sources:
	@test -z "$(release)" || { echo 'This is a release, which has no sources: take a checkout.' >&2; exit 1; }

install: has_program
	@test -n "$(release)" || ! tools/sources changed || \
	    echo 'Warning: the program is older than its sources; ./dettrace build makes it anew.' >&2
	@tools/install "$(program)" "$(DESTDIR)$(PREFIX)"
	@echo 'dettrace is installed below $(DESTDIR)$(PREFIX).'

uninstall:
	@tools/install --remove "$(DESTDIR)$(PREFIX)"

dist: has_sources has_program
	@tools/dist

check: has_sources
	.ci/run

# The machine's speed beside that of a plain loop in Rust, atomics a second beside qemu-riscv64, how the times of names and
# of memory grow, calls, children, megabytes through a pipe and signals a second beside qemu-riscv64, the time of a turn
# among many processes, and that of runs with one worker and with four. All of it is timed from outside, by guests. Nothing that is timed here is a test.
bench: has_sources has_program
	python3 bench/machine/run.py $(program)
	python3 bench/atomics/run.py $(program)
	python3 bench/tree/run.py $(program)
	python3 bench/memory/run.py $(program)
	python3 bench/calls/run.py $(program)
	python3 bench/processes/run.py $(program)
	python3 bench/pipes/run.py $(program)
	python3 bench/signals/run.py $(program)
	python3 bench/timers/run.py $(program)
	python3 bench/workers/run.py $(program)

# Random images, executables, words and guests, from a seed that is printed: HOSTILE='--seed N --tries N'. docs/SECURITY.md
# says what is looked at. What failed is kept in out/hostile.
hostile: has_sources has_program
	tools/hostile --program $(program) $(HOSTILE)

# Demonstrations and examples by random numbers of workers, beside processes that keep the processors busy, from a seed
# that is printed: SOAK='--seed N --runs N --busy N --minutes N'. It ends after a thousand runs or half an hour.
soak: has_sources has_program
	tools/soak --program $(program) $(SOAK)
