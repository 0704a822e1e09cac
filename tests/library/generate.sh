#!/usr/bin/env bash
# Writes the files of one release of the HDF5 library, and the report on them by the same release.
#
#   generate.sh SCRATCH RELEASE [HEADERS]
#
# RELEASE is a folder into which that release's packages were unpacked: the library with its headers and what the library
# needs. HEADERS is another such folder whose headers are taken, for a release that comes without any. If RELEASE has a C
# library and loader of its own, the programs run with these, else with the machine's. Everything goes to SCRATCH/VERSION:
# programs, files/NAME.h5, recipes.txt, report.txt. Then manifest.py takes over what the repository keeps.
set -eu
if [ $# -lt 2 ] || [ $# -gt 3 ]; then
    echo "usage: generate.sh SCRATCH RELEASE [HEADERS]" >&2
    exit 2
fi
here=$(cd "$(dirname "$0")" && pwd)
mkdir -p "$1"
scratch=$(cd "$1" && pwd)
release=$(cd "$2" && pwd)
headers=$(cd "${3:-$2}" && pwd)

# one FOLDER NAME: the first file of this name below the folder
one() {
    find "$1" -name "$2" | sort | head -n 1
}
include=$(dirname "$(one "$headers" hdf5.h)")
library=$(find "$release" -name 'libhdf5_serial.so.*' -o -name 'libhdf5.so.*' | sort | head -n 1)
folders=$(find "$release" -name '*.so.*' ! -type d -printf '%h\n' | sort -u | paste -sd:)
loader=$(one "$release" 'ld-linux*.so.*')

# run PROGRAM ARGUMENTS: with this release
run() {
    if [ -n "$loader" ]; then
        HDF5_DISABLE_VERSION_CHECK=2 "$loader" --library-path "$folders" "$@"
    else
        HDF5_DISABLE_VERSION_CHECK=2 LD_LIBRARY_PATH=$folders "$@"
    fi
}

build=$(mktemp -d)
trap 'rm -rf "$build"' EXIT
for program in generate report; do
    cc -std=gnu99 -O1 -Wall -Wextra -DH5_USE_110_API -I"$include" -o "$build/$program" "$here/$program.c" \
        "$library" -Wl,--unresolved-symbols=ignore-in-shared-libs
done
version=$(run "$build/generate" version)
out=$scratch/$version
rm -rf "$out"
mkdir -p "$out/files"
mv "$build/generate" "$build/report" "$out"
run "$out/generate" list >"$out/recipes.txt"
run "$out/generate" write "$out/files"
cd "$out/files"
while read -r name _; do
    echo "recipe $name"
    run "$out/report" "$name.h5"
done <"$out/recipes.txt" >"$out/report.txt"
echo "$version: $(ls | wc -l) files, $(cat ./* | wc -c) bytes"
