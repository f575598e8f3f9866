# Python 3.11, make and, except for `make doc`, gcc and stable cargo (1.89 or later) build and test all of this. `make setup run`
# installs first, as root on Debian, what `make run` lacks (tools/packages.txt), and so for lib, js and test; no other
# command installs anything. Each says at its start what it lacks, and what is not run.
#   make run       erases the contracts from the proved source, builds the program build/bin/scrypt_tool from the rest,
#                  and prints the first key of RFC 7914, section 12, in about a minute
#   make lib       builds the C libraries into build/lib, in about a minute; with PRESET=arm64 for that
#                  CPU, and the program, or with PRESET=windows for Windows, into build/PRESET
#   make js        builds the module for JavaScript into bindings/js, and tests it
#   make test      is the gate: runs all tests but those before a release (CONTRIBUTING.md). With the Rattle kit it also
#                  proves everything, and checks that wrong code is rejected; without it, its last lines say that
#                  nothing was proved
#   make install   installs the built files below prefix=/usr/local, and honours DESTDIR; after make run alone, the
#                  program with its man page and its completion
#   make uninstall removes the last installation; use the same DESTDIR
#   make doc       makes pages for reading the proof, and prints the address that a browser opens; needs
#                  python3-jinja2
#   make dist      makes packages for Debian, Python, Go, Rust and npm, archives, and their hashes, in build/dist
# With the kit, which is not public:
#   make prove     proves everything; some kits do not prove again what an earlier run on this machine has proved
#                  (docs/EVIDENCE.md)
#   make check     proves and tests the changes since the last check
# To change it:
#   make generate  generates the packages' declarations from the C header, as make lib does
#   make promises  generates docs/contracts.txt, and the code and the lists in docs/PROMISES.md
#   make documents checks the documents and the scripts, and reports every error
#   make suites    tests the built files: from C and each other language, the examples, and the program
#   make examples  tests examples/
#   make clean     removes the built files
# CONTRIBUTING.md names rarely needed scripts.
unexport CDPATH # with it, cd would go elsewhere
PRESET ?= native
export PRESET DESTDIR
prefix = $(or $(PREFIX),/usr/local)
STEP = EACH=60 tools/gate/step.sh
TARGET = $(shell python3 -B -m tools.presets target $(PRESET))
# Where the program runs too. A comment behind the value would leave a blank in it, which is true.
IS_CROSS = $(filter arm64,$(PRESET))
COMMANDS = $(or $(filter run lib js test,$(MAKECMDGOALS)),test)
.PHONY: help setup needs-run needs-lib needs-js needs-test run lib linked js install uninstall test prove check kit \
  documents suites examples built generate promises doc dist clean
help:
	@sed -n '/^#/!q; s/^# \{0,1\}//p' Makefile
setup:
	@tools/setup.sh install $(COMMANDS)
needs-run needs-lib needs-js needs-test: needs-%: | $(filter setup,$(MAKECMDGOALS))
	@tools/setup.sh $* $(if $(filter install,$(MAKECMDGOALS)),"$(prefix)")

run: needs-run
	@$(STEP) program rust/build.sh program
	@echo "build/bin/scrypt_tool prints the first key of RFC 7914, section 12:"; \
	  build/bin/scrypt_tool key 4 1 1 64 "" < /dev/null
lib: export STEPS = library linked $(if $(IS_CROSS),program)
lib: needs-lib
	@$(STEP) library rust/build.sh c $(TARGET)
	@$(STEP) linked $(MAKE) --no-print-directory linked
	@$(if $(IS_CROSS),$(STEP) program rust/build.sh program $(TARGET) build/$(PRESET)/bin/scrypt_tool)
linked: # compiles the C, and links the object of the proved calls
	@cd bindings/c && LACKING= cmake --preset $(PRESET) > /dev/null
	@cmake --build build/$(PRESET) -- --quiet
js: export STEPS = module javascript
js: needs-js
	@$(STEP) module python3 -m bindings.js.build
	@$(STEP) javascript bindings/js/test/test.sh
install: | $(filter run lib,$(MAKECMDGOALS))
	@tools/install.sh "$(prefix)"
uninstall:
	@tools/install.sh --remove
test: needs-test; @tools/gate/run.sh

kit:
	@command -v rt > /dev/null || { echo "The Rattle kit's command rt isn't here: nothing is proved." >&2; exit 1; }
prove: kit; @EACH=600 tools/gate/step.sh proofs tools/kit/prove.sh
check: kit documents
	@$(STEP) what-changed env RT_SECONDS=300 rt all test
	@tools/gate/run.sh answers
documents: generate
suites examples: | built
built:
	@[ -e build/lib/libscrypt_c.so ] || { echo "the libraries that are tested are not here: make lib builds them" >&2; exit 1; }
documents suites examples:
	@tools/gate/run.sh $@
generate:; @python3 -m tools.generate.declarations
promises:; python3 -m tools.generate.make promises
doc:; python3 -m tools.generate.make
dist:; tools/release/dist.sh
clean:; rm -rf build crates/*/out
