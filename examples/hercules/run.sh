#!/bin/sh
# Copies a volume that the tools of the Hercules emulator made, in a temporary folder: imports its image, copies it by a session, captures
# what a changed image holds, follows it, kills the program, recovers, and exports the copy. That image is to be the changed one, byte by
# byte. It is skipped if the emulator's tools can't be had.
set -eu

if ! command -v dasdload >/dev/null && command -v apt-get >/dev/null && [ "$(id -u)" -eq 0 ]; then
    apt-get install -y --no-install-recommends hercules >/dev/null 2>&1 || true
fi
if ! command -v dasdload >/dev/null || ! command -v dasdls >/dev/null; then
    echo "skipped: the tools of the package hercules are not here"
    exit 0
fi

# shellcheck source=SCRIPTDIR/../common.sh
. "$(dirname "$0")/../common.sh"

bridge=$repository/crates/xrc_ckd/out/xrc_ckd
build xrc_ckd

# An image of a volume VOL001 of two cylinders with the data set of a text.
make_image() {
    printf 'VOL001 3390-1 2\nBRIDGE.NOTES TEXT %s trk 2 0 0 ps fb 80 800\nBRIDGE.PARTS EMPTY trk 2 0 4 po fb 80 800\nBRIDGE.VTOC VTOC trk 1\n' "$2" >"$1.ctl"
    dasdload "$1.ctl" "$1.img" 1 >/dev/null 2>&1 || fail "dasdload makes no image"
}

echo "dasdload makes a volume, and the same with another text."
printf 'THE FIRST LINE\nTHE SECOND\n' >first.txt
printf 'THE FIRST LINE\nANOTHER SECOND\nA THIRD\n' >second.txt
make_image before first.txt
make_image after second.txt

echo "xrc_ckd says:"
"$bridge" import before.img VOL001 trace || fail "the image is not imported"
"$bridge" capture before.img after.img VOL001 0000000000000070 trace || fail "the change is not captured"

rm -f control state journal.* volume.*
truncate -s 1024 control
truncate -s 16384 state
truncate -s 1826816 journal.0 journal.1
truncate -s $((512 + 2 * 860160)) volume.0
"$program" init 0 SEC001 2 >labelled || fail "the volume gets no label"

cat >script <<'SCRIPT'
0000000000000050 XSTART ABC
0000000000000060 XADDPAIR ABC VOLUME(VOL001,SEC001)
0000000000000062 XQUERY ABC
0000000000000090 XEND ABC
SCRIPT

# The slot of track 1, on which the text lies, holds what the changed image has: two records, the first of 240 bytes.
is_followed() {
    [ "$(slot 0 1 6)" = 0002010000f0 ]
}

# After the change at 70 the controller writes 32 times to the volume's last track, which stays empty, and falls silent. As many writes
# as a group may have let the change be copied before anything else is read.
follow() {
    cat trace
    writes=0
    while [ "$writes" -lt 32 ]; do
        bytes '04 00 00 00 00 00 00 00 71 00 00 00 01 00 0E 00 00'
        writes=$((writes + 1))
    done
    bytes '01 00 00 00 00 00 00 00 80'
    exec sleep 600
}
mkfifo trace.0
follow >trace.0 &
writing=$!
"$program" run ABC 1 <script >replies &
running=$!
wait_until "the change did not come to the volume" is_followed
crash
echo "The program is killed once the change is on the volume. It had said:"
cat replies
recover
grep -qx 'RECOVERED ABC T=000000000000007[0-9A-F]' recovered || fail "the time is not one from the change on"
grep -qx 'PAIR VOL001 SEC001 DUPLEX' recovered || fail "the pair is not duplex"

echo "xrc_ckd says:"
"$bridge" export volume.0 copy.img || fail "the copy is not exported"
cmp after.img copy.img || fail "the copy is not the changed image"
echo "The exported image is the changed one, byte by byte. dasdls lists it:"
dasdls copy.img 2>/dev/null | tee listed
grep -q BRIDGE.NOTES listed || fail "the copy is not listed"

status=0
"$bridge" import first.txt VOL001 other >said || status=$?
[ "$status" -eq 4 ] || fail "a text is imported with $status"
[ ! -e other ] || fail "a refused import leaves a trace"
echo "A file that is no image is refused:"
cat said
