#!/usr/bin/env bash
# 100000 sheets and single calls through the library, both plain C programs and the reference. 10-interface.sh builds the
# drivers, before or meanwhile: more processes than processors, so that the reference's answers are worked out in that
# time, and none of them keeps the build waiting.
set -euo pipefail
cd "$(dirname "$0")/../.."
nice python3 tests/differential.py target/interface/{driver,plain,kept} --brief --wait --jobs $((3 * $(nproc)))
