#!/usr/bin/env bash
# The release as a new user meets it: made twice with the same bytes, unpacked elsewhere, and each command of its README
# run there, in order. 10-interface.sh builds the archive, before or meanwhile.
set -euo pipefail
cd "$(dirname "$0")/../.."
root=$PWD

until [ -x target/interface/driver ]; do
  [ ! -e target/interface/failed ] && [ "$SECONDS" -lt 600 ] || { echo 'bundle: the library was not built'; exit 1; }
  sleep 0.1
done
work=$(mktemp -d)
trap 'rm -rf "$work"' EXIT
wrong() { echo "bundle: $*"; exit 1; }

# One script at a time makes the shared library.
flock target/interface/driver tools/shared >/dev/null
files() { find python -name __pycache__ -prune -o -print | sort; }
files >"$work/before"
made=$(tools/release 2>"$work/said") || { cat "$work/said"; exit 1; }
cp "$made" "$made.sha256" "$work"
rm "$made"
cd /
again=$(umask 077 && LC_ALL=C TZ=Asia/Tokyo "$root/tools/release" 2>"$work/said") || { cat "$work/said"; exit 1; }
cd "$root"
cmp "$again" "$work/$(basename "$made")" || wrong 'made twice, it has other bytes'
files | diff "$work/before" - || wrong 'it leaves files in python/'

# From here on nothing but what the archive has, and Debian's programs.
cd "$work"
sha256sum --quiet -c ./*.sha256
tar -xzf ./*.tar.gz
name=$(basename "$made" .tar.gz)
cd "$name"
version=${name#saugrinte-} version=${version%-x86_64}
export HOME=$work/home PATH=/usr/bin:/bin PYTHONDONTWRITEBYTECODE=1 PIP_NO_CACHE_DIR=1
mkdir "$HOME"
unset PYTHONPATH PYTHONHOME SAUGRINTE_LIBRARY LD_LIBRARY_PATH PKG_CONFIG_PATH
[ "$(tar -tvzf "../$name.tar.gz" | awk '{ print $2 }' | sort -u)" = 0/0 ] || wrong 'not all files are owned by 0'

# Runs the README's commands of a number: those that are indented and stand together.
block() {
  awk -v wanted="$1" '/^    / { if (!within) { count++; within = 1 } if (count == wanted) print substr($0, 5); next }
    { within = 0 }' README.md >../commands
  bash -euo pipefail ../commands
}
! grep -n VERSION README.md lib/pkgconfig/saugrinte.pc || wrong 'VERSION is left in a file'

# Every file has its sum, and no other.
block 1 >../sums || { cat ../sums; wrong 'a sum is not that of its file'; }
diff <(find . ! -type d ! -name SHA256SUMS | sort) <(sed 's,^[^ ]*  ,./,' SHA256SUMS | sort) \
  || wrong 'files and sums are not the same'

# C, shared and static.
block 2 >../printed
diff ../printed <(cat "$root/examples/rate.out" "$root/examples/rate.out") || wrong 'C prints something else'
needs() { objdump -p "$1" | awk '$1 == "NEEDED" { print $2 }' | sort | tr '\n' ' '; }
[ "$(needs rate-shared)" = 'libc.so.6 libsaugrinte.so.1 ' ] || wrong "rate-shared needs $(needs rate-shared)"
[ -z "$(needs rate-static)" ] || wrong "rate-static needs $(needs rate-static)"
[ "$(PKG_CONFIG_PATH=lib/pkgconfig pkg-config --modversion saugrinte)" = "$version" ] || wrong 'saugrinte.pc: version'
while read -r file glibc; do
  [ "$(needs "$file")" = 'libc.so.6 ' ] || wrong "$file needs $(needs "$file"), and README.md says libc.so.6"
  said=$(objdump -T "$file" | grep -o 'GLIBC_[0-9.]*' | sort -Vu | tail -n 1)
  [ "$said" = "GLIBC_$glibc" ] || wrong "$file needs $said, and README.md says glibc $glibc"
done <<'END'
lib/libsaugrinte.so 2.14
bin/rate 2.34
bin/rate_moles 2.34
END

# The wheel: all of the package is in it, and it takes its own library.
block 3
package=$(venv/bin/python -c 'import os, saugrinte.library as l; print(os.path.dirname(l.path()))')
[[ $package = "$PWD/venv/"* ]] || wrong "the wheel takes the library of $package"
diff -r -x __pycache__ -x libsaugrinte.so "$root/python/saugrinte" "$package" || wrong 'the wheel has other files'
cmp lib/libsaugrinte.so "$package/libsaugrinte.so"
[ "$(venv/bin/python -c 'import saugrinte; print(saugrinte.version())')" = "$version" ] || wrong 'the wheel: version'
block 4 >../printed
grep -qF 91.0787 ../printed || { cat ../printed; wrong 'the command says nothing of 91.0787'; }
[ "$(block 5)" = 91.0787384 ] || wrong 'Python says something else'

# The display programs.
diff <(block 6 2>/dev/null) <(printf 'RATED %s\n' '910787384 91 369794 8' '910833230 91 436527 7') || wrong 'bin/rate'

echo "bundle: $name.tar.gz, made twice alike; its sums, C, Python, command and display programs are as its README says"
