#!/usr/bin/env bash
# The script that makes a sheet from plain lines, against the reference's layout.
set -euo pipefail
cd "$(dirname "$0")/../.."
python3 tests/tools_test.py
