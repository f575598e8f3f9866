#!/usr/bin/env bash
# Looks for what a command of make needs, by the rows of tools/packages.txt, and with PRESET by those of
# bindings/c/CMakePresets.json. If something is missing without which the command cannot pass, it ends with one line,
# before anything is built; else a line for each part says what is not run.
# usage: setup.sh run|lib|js|test [PREFIX]   with DESTDIR as make has it. With a prefix, `make install` follows
#        setup.sh install COMMAND..          installs what these commands lack, if it runs as root on Debian
set -u
cd "$(dirname "$0")/.." || exit
end() { # WHY
  echo "make $1" >&2
  exit 1
}
python3 -c 'import sys; sys.exit(sys.version_info < (3, 11))' 2> /dev/null || end "$1 needs Python 3.11 or later"
rows() { # COMMAND
  local it machines=''
  grep "^[^#|]*\\<$1\\>" tools/packages.txt
  case $1:${PRESET:-native} in
    test:*) machines=$(python3 -B -m tools.presets names) ;;
    lib:native) ;;
    lib:*) machines=$PRESET ;;
  esac
  for it in $machines; do
    echo "$1 | $(python3 -B -m tools.presets needs "$it") |$([ "$1" = lib ] || echo " the build and the tests for $it")"
    echo "$1 | rustc-web rust-web-src | the library for $it, unless rustup has its target"
  done
}
# Whether a word of a row is here. A cargo that is older than the crates allow is not; crates of Debian are not needed if cargo
# may ask a registry.
has() {
  local least
  case $1 in
    cargo:*)
      least=$(sed -n 's/^rust-version = "\([0-9.]*\)".*/\1/p' rust/crates/Cargo.toml)
      cargo --version 2> /dev/null | awk '{ print $2 }' | { read -r it && printf '%s\n' "$least" "$it" | sort -CV; } ;;
    *:*) command -v "${1%%:*}" > /dev/null || [ -e "${1%%:*}" ] ;;
    librust-*) [ "${CARGO_NET_OFFLINE:-}" = false ] || is_installed "$1" ;;
    *) ! command -v dpkg-query > /dev/null || is_installed "$1" ;;
  esac
}
is_installed() { [[ $(dpkg-query -W -f '${db:Status-Status}' "$1" 2> /dev/null) == installed* ]]; }
absent() {
  local it
  for it; do has "$it" || printf ' %s\n' "${it#*:}"; done | sort -u | tr -d '\n'
}

# shellcheck disable=SC2046,SC2086 # names without blanks
if [ "$1" = install ]; then
  shift
  absent=$(absent $(for it; do rows "$it" | grep -v "($it).*|"; done | cut -d'|' -f2))
  if [ -z "$absent" ]; then echo "Every package is installed that make $* needs."; exit; fi
  if ! command -v apt-get > /dev/null || ! command -v dpkg-query > /dev/null || [ "$(id -u)" != 0 ]; then
    end "setup installs packages only as root on Debian; missing for make $* are:$absent"
  fi
  echo "Installs these packages of Debian, in some minutes:$absent"
  mkdir -p build
  export DEBIAN_FRONTEND=noninteractive
  apt-get update -qq > build/setup.log 2>&1
  get() { apt-get install -o DPkg::Lock::Timeout=600 -qq -y --no-install-recommends "$@" >> build/setup.log 2>&1 < /dev/null; }
  # If one of them cannot be installed, the others are.
  get $absent || for it in $absent; do get "$it" || echo "$it is not installed: build/setup.log says why"; done
  exit 0
fi
name=$1 rows=$(rows "$1")
if [ $# = 2 ]; then
  place=${DESTDIR:-}$2
  while ! [ -e "$place" ]; do place=$(dirname "$place"); done
  if ! [ -d "$place" ] || ! [ -w "$place" ]; then end "install cannot write to $place: prefix=\$HOME/.local?"; fi
fi
# shellcheck disable=SC2046 # names without blanks
absent=$(absent $(sed -n 's/.*|\(.*\)|$/\1/p' <<< "$rows"))
case $absent in *librust-*) absent="$absent (crates: or CARGO_NET_OFFLINE=false, to download them)" ;; esac
case $absent in *cargo-web*) ! command -v cargo > /dev/null ||
  absent="$absent (this cargo is too old; Debian 12 has a later one in bookworm-security)" ;; esac
if [ -n "$absent" ]; then end "$name needs these packages of Debian, which make setup $name installs as root:$absent"; fi
while IFS='|' read -r _ words what; do
  # shellcheck disable=SC2086 # names without blanks
  absent=$(absent $words)
  if [ -n "$absent" ]; then echo "not run without$absent:$what"; fi
done <<< "$rows"
