#!/bin/bash
# Checks the first step of make where packages are missing, make setup, what the gate prints, and the end of make run with its
# installation. Nothing is built: the packages and what is built are stubs.
set -eu
cd "$(dirname "$0")/../.."
room=$(mktemp -d)
trap 'rm -rf "$room"' EXIT
mkdir -p "$room"/{bin,tools/gate,bindings/c,bindings/cli,rust/crates,build}
cp Makefile "$room"
cp tools/{setup,install}.sh tools/{lacks,presets.py} "$room/tools"
cp bindings/c/CMakePresets.json "$room/bindings/c"
cp tools/gate/{run,step}.sh "$room/tools/gate"
cp rust/crates/Cargo.toml "$room/rust/crates"
cp bindings/cli/{install.sh,scrypt_tool.1,scrypt_tool.bash} "$room/bindings/cli"
cd "$room"
unset CARGO_NET_OFFLINE PRESET STEPS NICE LIMIT EACH JOBS DESTDIR MAKEFLAGS # of who runs this
export PATH="$room/bin:$PATH"
is() { if [ "$1" != "$2" ]; then printf '%s\nand not: %s\n' "$1" "$2"; exit 1; fi; }
fake() { # COMMAND LINE: a command that prints this line, and notes how it is called
  printf '#!/bin/sh\necho %s "$@" >> asked\necho %s\n' "$1" "$2" > "bin/$1"
  chmod +x "bin/$1"
}

# ---- The first step, and make setup ----
cat > tools/packages.txt << 'END'
run lib test | sh:dash no-cc:gcc |
lib test | /no/cmake:cmake |
run lib js test | cargo:cargo-web librust-hex-dev |
js test | sh:dash | what is here
(js) test | no-node:nodejs unknown | the page
END
setup() { { tools/setup.sh "$@" 2>&1 && echo and passes; } | xargs; }
needs() { echo "make $1 needs these packages of Debian, which make setup $1 installs as root: $2"; }
fake id 1000
fake apt-get ""
fake dpkg-query installed
fake cargo "cargo 1.88.9"
is "$(setup run)" "$(needs run 'cargo-web gcc (this cargo is too old; Debian 12 has a later one in bookworm-security)')"
fake cargo "cargo 1.95.0"
is "$(setup run)" "$(needs run gcc)"
is "$(setup lib)" "$(needs lib 'cmake gcc')"
is "$(setup run "$room/Makefile/no")" "make install cannot write to $room/Makefile: prefix=\$HOME/.local?"
is "$(DESTDIR="$room" setup run /usr)" "$(needs run gcc)"
is "$(setup js)" "not run without nodejs: the page and passes"
is "$(setup install js)" "Every package is installed that make js needs. and passes"
is "$(setup install lib)" "make setup installs packages only as root on Debian; missing for make lib are: cmake gcc"
fake dpkg-query ""
is "$(setup js)" "$(needs js 'librust-hex-dev (crates: or CARGO_NET_OFFLINE=false, to download them)')"
is "$(CARGO_NET_OFFLINE=false setup js)" "not run without nodejs unknown: the page and passes"
fake id 0
is "$(setup run)" "$(needs run 'gcc librust-hex-dev (crates: or CARGO_NET_OFFLINE=false, to download them)')"
if grep apt-get asked; then echo "installs packages without make setup, or not as root"; exit 1; fi
is "$(make --no-print-directory setup lib 2> said | xargs)" "Installs these packages of Debian, in some minutes: cmake gcc librust-hex-dev"
grep -q '^make lib needs these packages of Debian, .*: cmake gcc librust-hex-dev ' said
grep -q '^apt-get install .* cmake gcc librust-hex-dev$' asked

# ---- Steps, and the last lines ----
cat > tools/gate/gate.mk << 'MK'
documents = proved counted parts part none needs wrong hangs after proofs
tasks:; @echo $($(OF))
documents: $(documents)
STEP = @tools/gate/step.sh $@
proved:; $(STEP) bash -c 'echo "logic=proved functions=7 axioms=0"; echo "so far: 1 of 7 functions checked"'
counted:; $(STEP) bash -c 'echo "logic=proved functions=7 axioms=0"; echo "2 passed, 0 failed"'
parts:; $(STEP) printf '%s\n' "a: 3 of 3 as they should be" "# pass 4" "Ran 5 tests in 1s" \
	"100% tests passed, 0 tests failed out of 6" "test result: ok. 7 passed; 0 failed; 0 ignored" "ok a check in a page"
part:; $(STEP) tools/lacks it a b
none:; $(STEP) bash -c 'tools/lacks it c; exit 77'
needs: none; $(STEP) nothing:d no-cc:gcc true
wrong:; $(STEP) bash -c 'echo why; exit 3'
hangs:; @LIMIT=1 tools/gate/step.sh $@ bash -c 'sleep 7914 & echo $$! > child; sleep 7914'
after: wrong
proofs:; @tools/gate/step.sh $@ no-rt:the-Rattle-kit true
waits:; $(STEP) ./until_said 'of . tasks have ended'
MK
# until_said TEXT ends when the line of the command that runs it has this text, so that no load breaks the test.
printf '#!/bin/sh\nuntil grep -q "$1" said; do sleep 0.1; done\n' > until_said
chmod +x until_said
no_times() { sed 's/ (.:.*//; /CPU-minutes$/d'; }
is "$(JOBS=1 tools/gate/run.sh documents 2> /dev/null | no_times)" "proved: proved, 7 functions
counted: 2 of 2 passed
parts: 26 of 26 passed
part: passed, in part (needs a b)
none: skipped (needs c)
needs: skipped (needs d gcc)
why
wrong: FAILED

hangs: FAILED after its limit, 1
proofs: skipped (needs the-Rattle-kit)
wrong: FAILED (build/log/wrong.log)
hangs: FAILED (build/log/hangs.log)
after: did not begin, since what it needs failed
in part: part (needs a b)
skipped: none (needs c); needs (needs d gcc); proofs (needs the-Rattle-kit)
Nothing was proved, since the Rattle kit is not here: this tested the erased crates, and what is built from them.
4 passed, 3 failed, 3 skipped"
timeout 600 sh -c 'while grep -qs "^State:.[^Z]" "/proc/$(cat child)/status"; do sleep 0.1; done' ||
  { echo "a child of a task that hangs is left"; exit 1; }

export EACH=600 STEPS="proved other"
EACH=1 JOBS=1 LIMIT=1h tools/gate/run.sh waits 2> /dev/null > said
step() { tools/gate/step.sh "$@" | tee said | no_times | sed 's/ for .*//' | uniq | xargs; }
is "$(step proved sh -c 'echo "so far: 3 of 7 functions checked"; ./until_said 42; echo "logic=proved functions=7"')" \
  "step 1 of 2, proved: begins proved: 42 % is checked step 1 of 2, proved: proved, 7 functions"
is "$(step proved true)" "step 1 of 2, proved: begins step 1 of 2, proved: nothing to do: proved, 7 functions"
is "$(EACH=1 step other ./until_said 'runs for')" "step 2 of 2, other: begins other: runs step 2 of 2, other: passed"
grep -q '^logic=proved functions=7' build/log/proved.log
unset EACH STEPS

# ---- The program, installed beside an installation whose folder has the name that & of sed makes ----
echo "run | sh:dash |" > tools/packages.txt
cat > rust/build.sh << 'END'
mkdir -p build/bin && printf '#!/bin/sh\necho the key of $*' > build/bin/scrypt_tool && chmod +x build/bin/*
END
chmod +x rust/build.sh
for it in ab 'a&b' 'a|b'; do
  is "$(make --no-print-directory run install prefix=/usr DESTDIR="$room/$it" | tail -n 3)" \
    "build/bin/scrypt_tool prints the first key of RFC 7914, section 12:
the key of key 4 1 1 64
installed below $room/$it/usr: scrypt_tool, its man page and its completion; make lib builds the libraries"
  is "$(cd "$it/usr" && find . -type f | sort | xargs)" "./bin/scrypt_tool ./share/bash-completion/completions/scrypt_tool ./share/man/man1/scrypt_tool.1"
done
make --no-print-directory uninstall DESTDIR="$room/a|b"
make --no-print-directory uninstall DESTDIR="$room/a&b"
is "$(find ab 'a&b' 'a|b' -type f | cut -d/ -f1 | xargs)" "ab ab ab"
is "$(make --no-print-directory uninstall DESTDIR="$room/a&b" 2>&1 | head -n 1)" \
  "no file of build/installed is below $room/a&b, or is there any more"

# ---- What Python compiled goes with its source, and nothing else ----
mkdir -p to/py/scrypt_c/__pycache__
touch to/py/scrypt_c/one.py to/py/scrypt_c/__pycache__/{one,other}.cpython-311.pyc
echo /py/scrypt_c/one.py > build/installed
make --no-print-directory uninstall DESTDIR="$room/to"
is "$(find to -type f)" "to/py/scrypt_c/__pycache__/other.cpython-311.pyc"
mv to/py/scrypt_c/__pycache__/{other,one}.cpython-311.pyc
touch to/py/scrypt_c/one.py
make --no-print-directory uninstall DESTDIR="$room/to"
# shellcheck disable=SC2038 # names without blanks
is "$(find to | xargs)" "to to/py"

# ---- A tree with what CMake built for the tree that it is a copy of ----
fake cmake ""
mkdir -p build/native other/bindings/c
touch build/native/{cmake_install.cmake,install_manifest.txt}
echo "CMAKE_HOME_DIRECTORY:INTERNAL=$room/other/bindings/c" > build/native/CMakeCache.txt
is "$(make --no-print-directory install 2>&1 | head -n 1)" \
  "build/native is of $room/other, and nothing is installed: make clean lib builds it here"
if grep '^cmake --install' asked; then echo "installs another tree's files"; exit 1; fi
echo "CMAKE_HOME_DIRECTORY:INTERNAL=$room/bindings/c" > build/native/CMakeCache.txt
make --no-print-directory install > said
grep -q '^cmake --install' asked
rm -r build/native

rm build/bin/scrypt_tool
is "$(make --no-print-directory install 2>&1 | head -n 1)" "nothing is built: make run builds the program, make lib the libraries"
echo "the first step of make, its steps and last lines, and the installed program"
