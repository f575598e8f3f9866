#!/bin/bash
# Runs the commands of README's *Build* on a fresh machine: a root of Debian 12 with make, python3 and git alone. A user
# without rights, in a clone, finds that they stop immediately. Root, in the sources of an archive, without .git, runs
# `make setup run`, `make setup test` and `make run install`; then the user can `make run`. Needs root, mmdebstrap, a
# network, and half an hour of four CPUs. build/fresh.log has what each prints, and its time. If one fails, the root is kept.
# usage: fresh.sh [kit]    with `kit`, the machine has the kit too, and proves
set -euo pipefail
cd "$(dirname "$0")/../.."
room=$(mktemp -d)
root=$room/root log=$PWD/build/fresh.log kit='' failed=0
if [ "${1:-}" = kit ]; then kit=$(dirname "$(rt doc)"); fi
mkdir -p build
mmdebstrap --quiet --variant=minbase --include=make,python3,git,ca-certificates bookworm "$root"
mkdir -p "$root$kit" "$root/root/scrypt"
if [ -n "$kit" ]; then ln -s "$kit/bin/rt" "$root/usr/local/bin/rt"; fi
chroot "$root" useradd -m user
git clone --quiet . "$root/home/user/scrypt"
chroot "$root" chown -R user: /home/user
git archive HEAD | tar x -C "$root/root/scrypt"
date -u > "$log"

# In a separate namespace for processes and mounts, so that none is left.
inside() { # USER COMMAND
  unshare --mount --pid --fork --kill-child sh -c 'mount -t proc proc "$0/proc" && mount --rbind /dev "$0/dev" &&
    mount --rbind /sys "$0/sys" && { [ -z "$1" ] || { mount --bind "$1" "$0$1" && mount -o remount,ro,bind "$0$1"; }; } &&
    exec chroot "$0" su - "$2" -c "cd scrypt && $3"' "$root" "$kit" "$1" "$2" < /dev/null
}
# try USER COMMAND TEXT [SECONDS] runs a command, whose output has this text. With SECONDS it has to fail, in so short a
# time, and to print a line, beside make's.
try() {
  local begun=$SECONDS status=0 wrong='' took
  echo "---- $1: $2" | tee -a "$log"
  inside "$1" "$2" 2>&1 | tee "$room/said" >> "$log" || status=$?
  took=$((SECONDS - begun))
  grep -q "$3" "$room/said" || wrong="does not say '$3'"
  if [ "${4:-}" = '' ]; then [ $status = 0 ] || wrong="status $status"
  elif [ $status = 0 ] || [ $took -gt "$4" ] || [ "$(grep -vc ^make: "$room/said")" != 1 ]; then wrong="did not stop at once"; fi
  echo "$((took / 60)):$(printf %02d $((took % 60))) ${wrong:-as it should}" | tee -a "$log"
  if [ -n "$wrong" ]; then failed=1; fi
}
key=$(cat crates/scrypt_tool/stdout) # the first of RFC 7914
lacks="needs these packages of Debian, which make setup [a-z]* installs as root: .*gcc"
try user "make run" "^make run $lacks" 5
try user "make lib" "^make lib $lacks" 5
try user "make test" "^make test $lacks" 5
try user "make run install" "^make install cannot write to /usr/local" 5
try user "make setup run" "^make setup installs packages only as root on Debian" 5
try root "make setup run" "^$key"
try root "make setup test" "^[0-9]* passed, 0 failed"
try root "make run install" "^$key"
try root "scrypt_tool key 4 1 1 64 '' < /dev/null" "^$key"
try user "make run" "^$key"
if [ $failed = 0 ]; then rm -rf "$room"; else echo "failed: $log; the root is $root"; fi
exit $failed
