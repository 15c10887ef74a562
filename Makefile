# `make run` answers the shipped example, `make serve` serves clients over TCP, and `make steer` serves them as lines of standard
# input have it: by the proved program, or by one that they compile without a proof. `make build` builds that one in minutes, and
# `make prove` proves and builds the program.
# `make test` takes minutes: it runs the tests over the proved program, or over one that it compiles without a proof, and its last
# line says over which. `make test K=fencing` runs the cases of tests/ that have fencing in their names. They are those that
# `python3 -m unittest discover -s tests -t .` finds.
# `make verify` is the gate: it proves all, tries the mutants and the edits that tests have to fail, and runs all tests.
# `make check` takes minutes too: it lays out and checks the crates that changed since the last commit, or since another one, as
# in `make check SINCE=HEAD~3`, compiles the program, and runs the quick tests.
# `make dist` packs the program with all that an installation has, into dist/: a tarball, a package for Debian, a wheel of the Python
# package, checksums, and a file that says what was proved. `make install PREFIX=/usr/local` installs the same, below DESTDIR if that
# is given, and `make uninstall` takes it away. `KBROKER_PROGRAM=FILE` packs or installs another program.
# `make mutants` tries the mutants that the gate has no time for: of each crate, or of those named, as in
# `make mutants CRATES="walk authorizer"`.
.PHONY: run serve steer build prove test verify check mutants dist install uninstall help

SINCE ?= HEAD
PREFIX ?= /usr/local
PACKED = $(if $(KBROKER_PROGRAM),--program "$(KBROKER_PROGRAM)")
PLACE = --prefix "$(PREFIX)" --destdir "$(DESTDIR)"

run:
	@tools/run_example.py

serve:
	@tools/serve_example.py

steer: build
	@./kbroker serve --listen 127.0.0.1:9092 --workers 16 --settings examples/steered.toml --control --librdkafka

build:
	@tools/build.py

prove:
	@tools/prove.py

test:
	@tools/run_tests.py $(if $(K),-k "$(K)")

verify:
	@tools/gate.py

check:
	@tools/check.py "$(SINCE)"

mutants:
	@tools/mutants.py $(CRATES)

dist:
	@tools/dist.py $(PACKED)

install:
	@tools/install.py $(PLACE) $(PACKED)

uninstall:
	@tools/install.py $(PLACE) --remove

help:
	@sed -n 's/^# //p' Makefile
