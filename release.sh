#!/bin/sh
# Packs the programs that the gate has proved and built, with what a person needs to run them, into out/xrc-VERSION-x86_64-linux.tar.gz.
# It builds nothing. From one commit and the same programs it makes the same bytes each time.
set -eu
cd "$(dirname "$0")"

programs='xrc xrc_trace xrc_ckd'

fail() {
    printf 'release: %s\n' "$1" >&2
    exit 1
}

command -v rt >/dev/null || fail "the toolchain's command rt is not installed, whose version a release tells"
[ -z "$(git status --porcelain --untracked-files=no)" ] || fail "files differ from the commit: commit them first"
for program in $programs; do
    [ -x "crates/$program/out/$program" ] || fail "crates/$program/out/$program is not built: run rt ci, or rt run in crates/$program"
done

name=xrc-$(cat VERSION)-x86_64-linux
folder=$(mktemp -d)
trap 'rm -rf "$folder"' EXIT
mkdir -p "$folder/$name/docs"
for program in $programs; do
    install -m 755 "crates/$program/out/$program" "$folder/$name/$program"
done
install -m 644 README.md LICENSE docs/xrc.1 "$folder/$name"
install -m 644 docs/OPERATING.md docs/FORMATS.md "$folder/$name/docs"
{
    echo "version $(cat VERSION)"
    echo "commit $(git rev-parse HEAD)"
    echo "toolchain $(rt version)"
    # shellcheck disable=SC2086
    (cd "$folder/$name" && sha256sum $programs)
} >"$folder/$name/RELEASE"
chmod 644 "$folder/$name/RELEASE"
chmod 755 "$folder/$name" "$folder/$name/docs"

mkdir -p out
(cd "$folder" && LC_ALL=C tar --format=ustar --sort=name --owner=0 --group=0 --numeric-owner \
    --mtime="@$(git -C "$OLDPWD" log -1 --format=%ct)" -cf - "$name") | gzip -n -9 >"out/$name.tar.gz"
echo "out/$name.tar.gz"
