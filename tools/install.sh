#!/bin/sh
# `make install` and `make uninstall`, with DESTDIR and PRESET as make has them. After `make lib` CMake installs what
# is built, and the program if it is linked; otherwise only the program is installed. build/installed has the paths.
# usage: install.sh PREFIX      installs
#        install.sh --remove    removes the files of the last installation, what Python compiled from them, and the empty
#                               folders with our name
set -eu
cd "$(dirname "$0")/.."
folder=build/${PRESET:=native} list=build/installed program=build/bin/scrypt_tool
if [ "$PRESET" != native ]; then program=$folder/bin/scrypt_tool; fi
end() { # WHY
  echo "$1" >&2
  exit 1
}

if [ "$1" = --remove ]; then
  [ -e $list ] || end "nothing is installed"
  found=
  while IFS= read -r it || [ -n "$it" ]; do
    it=${DESTDIR:-}$it
    if [ -e "$it" ] || [ -L "$it" ]; then found=yes; fi
    rm -f "$it"
    case $it in
      *.py)
        compiled=${it%/*}/__pycache__ name=${it##*/}
        rm -f "$compiled/${name%.py}".*.pyc
        rmdir "$compiled" 2> /dev/null || true ;; # it can have other files, as those below
    esac
  done < $list
  sed -n 's|/[^/]*$||p' $list | grep -E '/scrypt_c(/|$)' | sort -ru | while IFS= read -r it; do
    rmdir "${DESTDIR:-}$it" 2> /dev/null || true
  done
  [ -n "$found" ] || end "no file of $list is${DESTDIR:+ below $DESTDIR, or is} there any more"
  exit
fi
if [ -e "$folder/cmake_install.cmake" ]; then
  # CMake has absolute paths: a copy of a tree would install, and list, what the other tree has.
  built_in=$(sed -n 's|^CMAKE_HOME_DIRECTORY:INTERNAL=\(.*\)/bindings/c$|\1|p' "$folder/CMakeCache.txt")
  # shellcheck disable=SC3013 # the shells of Linux and test(1) have it
  [ "$built_in" -ef . ] || end "$folder is of $built_in, and nothing is installed: make clean lib builds it here"
  cmake --install "$folder" --prefix "$1" > build/install.log
  cp "$folder/install_manifest.txt" $list
  echo "installed below ${DESTDIR:-}$1; programs find the library after ldconfig, or by LD_LIBRARY_PATH=$1/lib"
  case $PRESET$1 in
    windows* | */usr) ;;
    *) echo "Python's package is installed only below /usr: elsewhere, in a venv, pip install bindings/python" ;;
  esac
  if [ "$PRESET" != windows ] && ! [ -e "$program" ]; then echo "scrypt_tool is not installed: make run builds it"; fi
elif [ -e "$program" ]; then
  bindings/cli/install.sh "$program" "$1" > $list
  echo "installed below ${DESTDIR:-}$1: scrypt_tool, its man page and its completion; make lib builds the libraries"
else
  end "nothing is built: make run builds the program, make lib the libraries"
fi
