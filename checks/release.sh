#!/bin/sh
# Packs a release twice, which must give the same bytes, unpacks it in an empty folder, and copies a volume with the programs in it.
set -eu
cd "$(dirname "$0")/.."

fail() {
    printf 'release: %s\n' "$1" >&2
    exit 1
}

release=$(sh release.sh)
folder=$(mktemp -d)
trap 'rm -rf "$folder"' EXIT
cp "$release" "$folder/first.tar.gz"
sleep 1
sh release.sh >/dev/null
cmp "$folder/first.tar.gz" "$release" || fail "a second release of one commit has other bytes"

mkdir "$folder/unpacked"
tar -C "$folder/unpacked" -xzf "$release"
programs=$(echo "$folder"/unpacked/*)
(cd "$programs" && grep '  ' RELEASE | sha256sum --quiet -c) || fail "the programs have other sums"
for file in README.md docs/OPERATING.md docs/FORMATS.md LICENSE xrc.1; do
    [ -s "$programs/$file" ] || fail "the release lacks $file"
done
PROGRAMS=$programs sh examples/first-copy/run.sh >"$folder/said" 2>&1 || {
    cat "$folder/said" >&2
    fail "the release copies no volume"
}
echo "$release: the same bytes twice, and its programs copy a volume."
