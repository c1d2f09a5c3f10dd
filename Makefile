.DEFAULT_GOAL := help
.PHONY: help demo quick build trace pipe embedding lib lib-test test cases times falsify sweep memory bench interop programs install uninstall dist bindings constant-time

RT ?= rt
export RT

help: ## Lists these targets.
	@grep -E '^[a-z-]+: ## ' Makefile | sed 's/: ## /\t/' | expand -t 12

demo: ## Builds build/unproved/ssh_trace and runs it on the examples: a minute or two on idle cores. It is not proved, and says so.
	@sh tools/demo.sh

quick: ## The layout, the tests and the programs, not proved, on all cores: docs/TIMES.md has how long it takes.
	@sh tools/quick.sh

build: ## Proves both programs from their crates up and leaves them as build/ssh_trace and build/ssh_pipe.
	@sh tools/build.sh ssh_trace ssh_pipe

trace: ## The same of ssh_trace alone.
	@sh tools/build.sh ssh_trace

pipe: ## The same of ssh_pipe alone.
	@sh tools/build.sh ssh_pipe

embedding: ## The same of the client and the server of docs/EMBEDDING.md.
	@sh tools/build.sh example_embedding

lib: ## Proves the library for C and leaves it as build/libdivrelca.a and build/libdivrelca.so, with its header: docs/C.md.
	@sh tools/lib.sh

lib-test: ## Makes the library for C and runs its tests, sessions in memory, with the archives of both compilers.
	@sh tools/lib.sh test

test: ## The whole gate, everything from nothing, a misuse that has to be refused, the programs on their cases, each allocation refused in turn, and the tests of the libraries for C, Python and Rust: docs/TIMES.md has how long it takes.
	-@python3 tools/proved.py before
	$(RT) ci
	-@python3 tools/proved.py after
	@sh tools/misuse.sh
	@python3 tools/cases.py
	@python3 tools/pictures.py drawn
	@PROGRAM=$(CURDIR)/crates/test_plays/out/test_plays sh tools/memory.sh
	@sh tools/lib.sh test
	@sh tools/bindings.sh test

cases: ## Runs the programs on their cases: words, scripts, files, what they print, and exit statuses. The first time they are proved and built.
	@sh tools/build.sh ssh_trace ssh_pipe example_embedding
	@python3 tools/cases.py
	@python3 tools/pictures.py drawn

times: ## The proofs, edits and runs of the gate, which is its first command, with the processor time of each of its checks; what it says goes to build/gate.log.
	@mkdir -p build
	@python3 tools/times.py build/gate.log

falsify: ## Tries the wrong bodies of crates/*/falsify that the gate leaves out; CRATE=name for those of one crate.
	@sh tools/falsify.sh

sweep: ## Plays a whole session with each byte changed, left out and doubled in turn, by the proved program.
	@sh tools/build.sh ssh_trace
	build/ssh_trace sweep examples/whole_session.txt

memory: ## Makes calls, plays sessions and takes messages of data with each allocation refused in turn, until a run meets no refusal.
	@sh tools/memory.sh

bench: ## Ratios of this core's work: to the hashes that it has to compute, and of many channels to one.
	@sh tools/bench.sh

interop: ## Runs ssh_pipe against the implementations that are installed, and writes docs/INTEROP.md.
	@PAGE="$(CURDIR)/docs/INTEROP.md" bash tools/interop.sh

programs: ## Builds a client and a server in Rust over the library that `make lib` left, as build/dvssh and build/dvsshd, and the first program of docs/C.md.
	@sh tools/bindings.sh programs

install: ## Installs what `make lib programs` left, below PREFIX (/usr/local) and DESTDIR: docs/INSTALL.md. `make uninstall` removes it.
	@sh tools/install.sh install

uninstall: ## Removes what `make install` with the same words installed.
	@sh tools/install.sh uninstall

dist: ## Makes of what `make lib programs` left an archive for machines without the toolchain, with a receipt: docs/INSTALL.md.
	@sh tools/dist.sh

bindings: ## Tests the libraries for Python and Rust over the library that `make lib` left.
	@sh tools/bindings.sh test

constant-time: ## Runs the ciphers and curves under valgrind with secrets marked undefined, and finds a branch that is planted. Status 77: skipped.
	@sh tools/constant_time.sh
