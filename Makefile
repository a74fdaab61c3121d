# What people type first. `make` lists it.
PREFIX ?= /usr/local
PROGRAMS = zonenorm zonewords zonedigest zonefile

.PHONY: help kit run programs test prove gate install deb

help: ## this list
	@grep -hE '^[a-z]+:.*##' Makefile | sed -E 's/^([a-z]+):.*## /make \1\t/' | expand -t 16

kit:
	@command -v rt > /dev/null || { echo 'rt not found: it is the command of the Rattle kit (README.md, "Install")' >&2; exit 1; }

run: kit ## the example of README.md, without proofs: less than a minute the first time
	@tools/gate/build_unproved zonenorm
	build/unproved/zonenorm normalise example. < examples/first.zone

programs: kit ## the four programs without proofs, as build/unproved/NAME: a minute
	@tools/gate/build_unproved $(PROGRAMS)

test: kit ## every test, stored run and command test, without proofs: 6 minutes on 4 processors
	@tools/gate/test_unproved

prove: kit ## prove every crate and build the programs, as crates/NAME/out/NAME: 20 minutes on 4 processors
	rt all check
	@for name in $(PROGRAMS); do (cd crates/$$name && rt run < stdin -- $$(cat args) > /dev/null) || exit; done

gate: kit ## what a landing must pass: `make test`, every proof, wrong bodies, and the runs of the proved programs
	bash .ci/run

install: ## install the proved programs under PREFIX=/usr/local
	tools/package/install $(PREFIX)

deb: ## a Debian package of the proved programs
	tools/package/build
