#!/bin/sh
# Makes device images byte by byte in a temporary folder, imports one, captures a change, and shows and checks each refusal of the bridge.
# None of them may write anything.
set -eu

# shellcheck source=SCRIPTDIR/../common.sh
. "$(dirname "$0")/../common.sh"

bridge=$repository/crates/xrc_ckd/out/xrc_ckd
build xrc_ckd

# Writes bytes over those of a file from a place on.
patch() {
    bytes "$3" | dd "of=$1" bs=1 "seek=$2" conv=notrunc 2>/dev/null
}

# The place of a track of a 9345, by its head.
track() {
    echo $((512 + $1 * 46592))
}

# An image of a 9345 of one cylinder, of which track 3 has records 1 and 2.
cylinder() {
    printf 'CKD_P370' >"$1"
    bytes '0F 00 00 00 00 B6 00 00 45' >>"$1"
    truncate -s 699392 "$1"
    head=0
    while [ "$head" -lt 15 ]; do
        h=$(printf '%02x' "$head")
        records=
        [ "$head" -ne 3 ] || records='00 00 00 03 01 00 00 02 41 42 00 00 00 03 02 01 00 01 4B 43'
        patch "$1" "$(track "$head")" "00 00 00 00 $h 00 00 00 $h 00 00 00 08 00 00 00 00 00 00 00 00 $records FF FF FF FF FF FF FF FF"
        head=$((head + 1))
    done
}

# Runs the bridge with the words, which has to refuse them with a line, and to leave no new file.
refuse() {
    wanted=$1
    shift
    status=0
    "$bridge" "$@" >said 2>&1 || status=$?
    cat said
    [ "$status" -eq 4 ] || fail "$* ends with $status"
    [ "$(cat said)" = "REFUSED $wanted" ] || fail "REFUSED $wanted was to be said"
    [ ! -e new ] && [ ! -e new.part ] || fail "a refused command leaves a file"
}

# The same for an import of the image with bytes written over those at a place.
refuse_image() {
    cp image bad
    patch bad "$2" "$3"
    refuse "$1" import bad PRIM01 new
}

echo "An image of one cylinder is imported, and a change captured:"
cylinder image
"$bridge" import image PRIM01 trace
[ "$(wc -c <trace)" -eq 150 ] || fail "the trace has $(wc -c <trace) bytes"
cp image changed
patch changed $(($(track 3) + 29)) '43'
"$bridge" capture image changed PRIM01 0000000000000070 trace
bytes '04 00 00 00 00 00 00 00 70 00 00 00 00 00 03 00 02 01 00 00 02 43 42 02 01 00 01 4B 43' >entry
tail -c 29 trace >written
cmp entry written || fail "the change is not captured as one write"
[ "$(wc -c <trace)" -eq 179 ] || fail "the trace has $(wc -c <trace) bytes"
cp trace kept

echo "What is not such an image is refused:"
printf 'a text\n' >bad
refuse 'IMAGE 1 NOIMAGE' import bad PRIM01 new
refuse_image 'IMAGE 1 NOIMAGE' 0 '63'
refuse_image 'IMAGE 1 COMPRESSED' 4 '43'
refuse_image 'IMAGE 1 COMPRESSED' 4 '53'
refuse_image 'IMAGE 1 HEADS' 8 '0C'
refuse_image 'IMAGE 1 DEVICETYPE' 16 '75'
refuse_image 'IMAGE 1 TRACKSIZE' 13 'B8'
refuse_image 'IMAGE 1 SEVERALFILES' 17 '01'
refuse_image 'IMAGE 1 LENGTH' 699392 '00'

echo "What a track can't hold is refused with its place:"
refuse_image 'IMAGE 1 CYLINDER 0 HEAD 2 HOMEADDRESS' "$(track 2)" '80'
refuse_image 'IMAGE 1 CYLINDER 0 HEAD 14 HOMEADDRESS' $(($(track 14) + 4)) '0D'
refuse_image 'IMAGE 1 CYLINDER 0 HEAD 2 RECORDZERO' $(($(track 2) + 20)) '01'
refuse_image 'IMAGE 1 CYLINDER 0 HEAD 3 OTHERPLACE 31' $(($(track 3) + 34)) '04'
refuse_image 'IMAGE 1 CYLINDER 0 HEAD 3 NUMBER 21' $(($(track 3) + 25)) '00'
refuse_image 'IMAGE 1 CYLINDER 0 HEAD 3 NUMBER 31' $(($(track 3) + 35)) '01'
refuse_image 'IMAGE 1 CYLINDER 0 HEAD 3 TOOLONG 31' $(($(track 3) + 37)) 'FF FF'
refuse_image 'IMAGE 1 CYLINDER 0 HEAD 3 NOEND 31' $(($(track 3) + 37)) 'B6 00'
refuse_image 'IMAGE 1 CYLINDER 0 HEAD 3 OTHERPLACE 41' $(($(track 3) + 48)) '00'

echo "A capture is refused by its second image, its trace, or its volume:"
cp image bad
patch bad $(($(track 3) + 25)) '00'
refuse 'IMAGE 2 CYLINDER 0 HEAD 3 NUMBER 21' capture image bad PRIM01 0000000000000080 trace
cp image bad
patch bad 12 '00 BA 00 00 80'
truncate -s 714752 bad
refuse 'OTHERSHAPE' capture image bad PRIM01 0000000000000080 trace
refuse 'NOVOLUME' capture image changed PRIM02 0000000000000080 trace
refuse 'BADHEADER 0' capture image changed PRIM01 0000000000000080 image
refuse 'EARLIERSTAMP' capture image changed PRIM01 000000000000006F trace
head -c 178 trace >other
refuse 'BADTRACE 150' capture image changed PRIM01 0000000000000080 other
[ "$(wc -c <other)" -eq 178 ] || fail "a refused capture changes its trace"
cp trace other
patch other 150 '05'
refuse 'BADTRACE 150' capture image changed PRIM01 0000000000000080 other
cp trace other
patch other 13 '02'
refuse 'OTHERCYLINDERS' capture image changed PRIM01 0000000000000080 other
cmp trace kept || fail "a refused capture changes the trace"

echo "An export is refused by the volume's label or by a track:"
truncate -s 860672 volume.0
refuse 'NOLABEL' export volume.0 new
bytes '58 56 4F 4C 53 45 43 30 30 31 00 00 00 01' | dd of=volume.0 conv=notrunc 2>/dev/null
patch volume.0 $((512 + 5 * 57344)) '00 01 00'
refuse 'VOLUME CYLINDER 0 HEAD 5 NOTRACK' export volume.0 new
patch volume.0 $((512 + 5 * 57344)) '00 01 01 00 C0 00'
refuse 'VOLUME CYLINDER 0 HEAD 5 NOROOM' export volume.0 new 9345
"$bridge" export volume.0 new 3390
[ "$(wc -c <new)" -eq 852992 ] || fail "the image has $(wc -c <new) bytes"
