#!/usr/bin/env bash
# Programs that mix moles and volumes, which the compiler refuses for their types. Nothing is proved here.
set -euo pipefail
cd "$(dirname "$0")/../.."
python3 tests/kinds.py
