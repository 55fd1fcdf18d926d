#!/usr/bin/env bash
# The Python package: the tests in tests/python, with the library that is proved here. 10-interface.sh builds its
# archive, before or meanwhile.
set -euo pipefail
cd "$(dirname "$0")/../.."

until [ -x target/interface/driver ]; do
  [ ! -e target/interface/failed ] && [ "$SECONDS" -lt 600 ] || { echo 'python: the library was not built'; exit 1; }
  sleep 0.1
done
flock target/interface/driver tools/shared >/dev/null       # one script at a time makes it
work=$(mktemp -d)
trap 'rm -rf "$work"' EXIT
export PYTHONDONTWRITEBYTECODE=1 HYPOTHESIS_STORAGE_DIRECTORY=$work/hypothesis MPLCONFIGDIR=$work/matplotlib
unset SAUGRINTE_LIBRARY
PYTHONPATH=$PWD/python timeout 600 /usr/bin/python3 -m pytest -q -p no:cacheprovider --basetemp="$work/tests" tests/python
