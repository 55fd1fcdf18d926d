#!/usr/bin/env bash
# The published examples through the library and the reference. 10-interface.sh builds the driver, before or meanwhile.
set -euo pipefail
cd "$(dirname "$0")/../.."
python3 tests/published.py target/interface/driver --brief --wait
