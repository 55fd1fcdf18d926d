#!/usr/bin/env bash
# The C interface: builds the library's archive, compiles the driver and the example against it with the header, and
# compares the header's constants with the sources, its version and ranges with the library's, and what the example
# prints. SAUGRINTE_LIB names another archive or a C file to take in the archive's place. The driver gets its name once
# it is whole: the other tests wait for it, or for a file `failed`. So do the drivers of the plain C program, `plain`
# and, with the library's ideas in its search, `kept`.
set -euo pipefail
cd "$(dirname "$0")/../.."

out=target/interface
mkdir -p "$out"
rm -f "$out/failed" "$out/driver" "$out/plain" "$out/kept"
trap 'status=$?; [ "$status" -eq 0 ] || touch "$out/failed"; exit "$status"' EXIT
lib=${SAUGRINTE_LIB:-target/staticlib/libsaugrinte.a}
if [ -z "${SAUGRINTE_LIB:-}" ]; then
  tools/archive --anew >/dev/null 2>"$out/archive.log" || { cat "$out/archive.log"; exit 1; }
fi

warnings='-std=c11 -Wall -Wextra -Werror'
gcc -O3 $warnings -Iinclude tests/driver.c "$lib" -o "$out/driver.new"
mv "$out/driver.new" "$out/driver"
gcc -O3 $warnings -Iinclude tests/driver.c tests/plain/saugrinte.c -o "$out/plain.new"
mv "$out/plain.new" "$out/plain"
gcc -O3 $warnings -DKEPT -Iinclude tests/driver.c tests/plain/saugrinte.c -o "$out/kept.new"
mv "$out/kept.new" "$out/kept"
gcc -O3 $warnings -Iinclude examples/rate.c "$lib" -o "$out/rate-example"
echo '#include "saugrinte.h"' | g++ -x c++ -fsyntax-only -Wall -Wextra -Werror -Iinclude -

if [ -z "${SAUGRINTE_LIB:-}" ]; then
  needs=$(nm -u "$lib" | sed -n 's/^ *U //p' | sort -u | tr '\n' ' ')
  [ "$needs" = 'memcpy ' ] || { echo "interface: the archive needs $needs, the header says memcpy"; exit 1; }
fi
python3 tests/header.py "$out/driver" "$out/plain"
said=$(echo version | "$out/driver")
[ "$said" = "${said#* } ${said#* }" ] || { echo "interface: versions of the header and of the library: $said"; exit 1; }
"$out/rate-example" >"$out/rate.out"
diff examples/rate.out "$out/rate.out" || { echo "interface: examples/rate.c prints something else than rate.out"; exit 1; }
echo "interface: $lib, header, drivers and example stand; the example prints examples/rate.out"
