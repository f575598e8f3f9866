#!/bin/sh
# Tests the page in Chromium over the module that `make js` built, against the program scrypt.
set -eu
cd "$(dirname "$0")"
export PATH="/usr/bin:$PATH"
if ! { command -v scrypt && command -v chromedriver && python3 -c 'import selenium'; } > /dev/null 2>&1; then
  ../../tools/lacks "what it needs" scrypt chromium-driver python3-selenium
  exit 77
fi
python3 -B test_file_page.py "$@"
