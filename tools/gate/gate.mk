# The tasks of the gate. Each prints one line (tools/gate/step.sh), and its failure does not stop the
# others; `tools/gate/run.sh` runs them. Two groups are useful separately: `make documents` needs nothing
# built, and `make suites` calls the files that `make lib`, `make js` and `make run` have built (with BUILT=1).
# A task that hangs is ended after LIMIT.
TASK = @NICE=$(or $(NICE),10) LIMIT=$(or $(LIMIT),2h) tools/gate/step.sh $@ $(NEEDS)
NEEDS =
PY = python3 -B -m

PROGRAM = build/bin/scrypt_tool
LIBRARY = build/lib/libscrypt_c.so
# Other machines.
MACHINES := $(shell $(PY) tools.presets names)
# Only code for x86-64 is compared with RFC 7914.
COMPILED := $(and $(filter x86_64,$(shell uname -m)),compiled)
FOR = $(shell $(PY) tools.presets needs $1) env -u CC
BUILD = rust/build.sh c $(shell $(PY) tools.presets target $1)
export ERASED = 1 # the task erased erases for all
ifdef BUILT
built =
else
built = $1
endif

# The longest tasks, and tasks that others wait for, are first.
BUILDS = erased library linked module program $(MACHINES:%=library-%) program-arm64 crates packages
documents = lint first-steps links version promises cores declarations vectors
examples = $(patsubst examples/%/test.sh,example-%,$(wildcard examples/*/test.sh))
LANGUAGES = python go rust javascript drop-in $(examples) examples-of-pages
suites = native asan tsan $(LANGUAGES) answers migration oracle hostile vectors-by-library $(COMPILED)
# They need the kit.
proved = proofs kit-library same must-not-compile new-user
gate = proofs $(BUILDS) $(MACHINES) answers-arm64 $(proved) $(documents) $(suites)
# Tasks give way to those that others wait for, and less those that take long alone.
proofs erased library linked: private NICE = 0
$(MACHINES:%=library-%) $(MACHINES) program-arm64 answers-arm64: private NICE = 5
$(proved): private NEEDS = rt:the-Rattle-kit
.PHONY: tasks documents suites examples proved-scrypt $(sort $(gate))
gate: $(gate)
documents: $(documents)
suites: $(suites)
examples: $(examples)
tasks: # of the targets OF
	@echo $(foreach it,$(OF),$(or $(sort $($(it))),$(it)))

# ---- The proofs ----
proofs: private export EACH = 600
proofs: private LIMIT = 6h
proofs:
	+$(TASK) tools/kit/prove.sh
# A task that needs a proved crate begins when `rt ci` has proved it: what follows there, tests and edits, takes
# about as long as all of these tasks.
proved-scrypt:
	@tools/kit/prove.sh scrypt

# ---- What the kit builds, code that must not compile, and counts ----
kit-library must-not-compile new-user: $(call built,proved-scrypt)
kit-library:
	$(TASK) $(PY) tools.kit.same build
same: $(call built,library kit-library)
	$(TASK) $(PY) tools.kit.same $(or $(CALLS),200000)
must-not-compile:
	$(TASK) $(PY) tools.kit.must_not_compile edits
new-user:
	$(TASK) tools/kit/new_user.sh
cores:
	$(TASK) $(PY) tools.kit.must_not_compile sources

# ---- The documents and the scripts ----
lint:
	$(TASK) tools/gate/lint.sh
first-steps:
	$(TASK) tools/gate/first_steps.sh
links:
	$(TASK) $(PY) tools.gate.docs
version:
	$(TASK) $(PY) tools.release.version
promises:
	$(TASK) $(PY) tools.generate.make check
declarations:
	$(TASK) $(PY) tools.tests.header
vectors:
	$(TASK) $(PY) tools.generate.vectors check

# ---- The erased crates, and the library from C ----
erased:
	$(TASK) rust/build.sh erase
crates: $(call built,erased)
	$(TASK) rust/build.sh
packages: $(call built,erased)
	$(TASK) rust/build.sh package
library: $(call built,erased)
	$(TASK) $(call BUILD,native)
linked: $(call built,library)
	$(TASK) $(MAKE) --no-print-directory -f Makefile linked
native asan tsan: linked
	$(TASK) tools/gate/c_tests.sh $@
$(MACHINES:%=library-%): library-%: $(call built,erased)
	$(TASK) $(call FOR,$*) $(call BUILD,$*)
$(MACHINES): %: $(call built,library-%)
	$(TASK) $(call FOR,$*) tools/gate/c_tests.sh $*

# The code of each level is compared with RFC 7914, and miscompilations are planted into it; then its instructions are
# compared with this processor.
compiled: private NEEDS = objdump:binutils
compiled: linked
	$(TASK) $(PY) tools.tests.compiled.planted $(LIBRARY)

# ---- Other languages ----
python go rust drop-in: linked
	$(TASK) bindings/$(subst -,_,$@)/test.sh
module:
	$(TASK) $(PY) bindings.js.build
javascript: $(call built,module) linked
	$(TASK) bindings/js/test/test.sh
# Both have a program that reads from a terminal.
answers example-key_files: private NEEDS = /dev/pts/ptmx:/dev/pts
$(examples): example-%: $(call built,module) linked
	$(TASK) examples/$*/test.sh
examples-of-pages: linked
	$(TASK) python3 -B bindings/readme_examples.py
hostile: linked
	$(TASK) $(PY) tools.tests.hostile $(LIBRARY) 30000
vectors-by-library: linked
	$(TASK) $(PY) tools.generate.vectors check $(LIBRARY)

# ---- The program ----
program: $(call built,erased)
	$(TASK) rust/build.sh program
program-arm64: $(call built,erased)
	$(TASK) $(call FOR,arm64) rust/build.sh program $(shell $(PY) tools.presets target arm64) build/arm64/bin/scrypt_tool
answers-arm64: $(call built,arm64 program-arm64)
	$(TASK) $(call FOR,arm64) env PRESET=arm64 tools/gate/program.sh
migration: linked
answers oracle migration: $(call built,program)
	$(TASK) $(PY) tools.tests.$(@:answers=program) $(PROGRAM)
