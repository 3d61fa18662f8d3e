# make test      runs every check; docs/TESTING.md says what is checked and how long it takes; make test ANEW=1 also proves again what is cached
# make check     proves what has changed over cached proofs, then runs the fast checks: for everyday work
# make setup     installs what the checks use besides the toolchain, and prints what each is used for; fails if something is missing afterwards
# make tour      runs a short example for Rattle callers: a filter, a take, an if-then-else, lists, rows of several columns, an error
# make run       runs the program on its stored input, or on a file: make run INPUT=file; make build proves and builds it
# make lib       proves and builds the C library into build/, and prints its progress; for newer processors into build/x86-64-v3/: make lib CPU=x86-64-v3
# make install   copies the C libraries that make lib built: make install PREFIX=folder DESTDIR=folder; make uninstall removes them
# make dist      packs them with the headers and the prover's verdicts into build/sel-VERSION-linux-x86_64.tar.gz, and writes the Python wheel
# make bench     times the kernels and writes docs/BENCHMARKS.md; make bench QUICK=1 only compares their answers; make bench UPSTREAM=folder adds upstream's kernels
# make fuzz      runs the fuzz targets: make fuzz MINUTES=n
# make soak      compares calls on random columns with a model: make soak MINUTES=n SEED=n
# make mutants   tries every mutant, not only those of make test
# make api       writes the API references, the C header and the statuses

INPUT ?= crates/sel_bench/stdin
PREFIX ?= /usr/local

.PHONY: run tour build lib install uninstall dist bench test check setup fuzz soak mutants api

run:
	@tools/run $(INPUT)

tour:
	@tools/run --tour

build:
	cd crates/sel_bench && rt run < /dev/null

lib:
	tools/clib.py $(if $(CPU),--cpu $(CPU))

install:
	@tools/dist.py --install '$(PREFIX)' --destdir '$(DESTDIR)' $(if $(CPU),--cpu $(CPU))

uninstall:
	@tools/dist.py --uninstall '$(PREFIX)' --destdir '$(DESTDIR)'

dist:
	@tools/dist.py

bench:
	UPSTREAM='$(UPSTREAM)' tools/bench/run.py $(if $(QUICK),quick)

test:
	tools/gate.py $(if $(ANEW),anew)

check:
	tools/gate.py check

setup:
	tools/gate.py setup

fuzz:
	tools/fuzz.py $(if $(MINUTES),--minutes $(MINUTES))

soak:
	tools/soak.py $(if $(MINUTES),--minutes $(MINUTES)) $(if $(SEED),--seed $(SEED))

mutants:
	tools/mutants.py --all

api:
	tools/statuses.py
	tools/api.py
	tools/header.py
	tools/python_docs.py
