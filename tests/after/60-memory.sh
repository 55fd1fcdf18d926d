#!/usr/bin/env bash
# Some thousand calls of the library under valgrind, with buffers of just the size that is lent. 10-interface.sh builds
# the driver, before or meanwhile.
set -euo pipefail
cd "$(dirname "$0")/../.."
nice python3 tests/memory.py target/interface/driver --wait
