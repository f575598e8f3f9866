#!/bin/sh
# Tests the site over build/lib: with SQLite behind waitress, and with PostgreSQL, in a temporary
# cluster, behind gunicorn.
set -eu
cd "$(dirname "$0")"
export PATH="/usr/bin:$PATH" PYTHONPATH=../../bindings/python SCRYPT_C_LIBRARY=../../build/lib
if ! { command -v chromedriver && python3 -c 'import django, waitress, gunicorn, selenium'; } > /dev/null 2>&1; then
  ../../tools/lacks "what it needs" python3-django python3-waitress gunicorn python3-selenium chromium-driver
  exit 77
fi
python3 -B manage.py test -k Client -k Column -k Waitress "$@"
if command -v pg_virtualenv > /dev/null && python3 -c 'import psycopg2' 2> /dev/null; then
  pg_virtualenv python3 -B manage.py test -k sessions -k Column -k Gunicorn "$@"
else
  ../../tools/lacks PostgreSQL postgresql python3-psycopg2
fi
