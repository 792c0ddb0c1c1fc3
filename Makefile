# Bare `make` lists the targets.
MAKEFLAGS += --no-print-directory
.DEFAULT_GOAL := help
ARGS =
CRATE =

help: # this list
	@sed -n 's/^\([a-z-]*\):.* # \(.*\)/  \1\t\2/p' Makefile

demo: # a PDF of a line of text with a subset of its font, and its picture, in out/demo; no kit
	@demo/run

test: # all tests; ARGS="PART.. --skip PART" (tests/run --help)
	@tests/run $(ARGS)

quick: # the tests that need neither proofs nor the kit
	@tests/run --quick $(ARGS)

prove: # proves all crates, or one: CRATE=subsetter
	@tools/install rt
	@cd $(if $(CRATE),crates/$(CRATE),.) && rt $(if $(CRATE),check,all check)

generate: # writes the crate bindings/rust from the proved sources
	@tools/install rustfmt
	@bindings/rust/generate
	@tools/copies --write

release: # the release files, into out/release (docs/PACKAGES.md); ARGS="--skip=PART,.."
	@release/make $(ARGS)

release-test: # installs and tests the release files, and tests other platforms; ARGS="--skip=PART,.."
	@release/test $(ARGS)
	@tests/platforms/run x86-64 aarch64 i686 s390x windows no-std

clean: # removes what was built, but not the proofs in crates/*/out
	@rm -rf out compare/build bindings/*/out bindings/*/target

.PHONY: help demo test quick prove generate release release-test clean
