#!/bin/sh
# Copies the volume of a duplex pair to a third volume in a temporary folder, kills the copy in the middle, and goes on with it.
set -eu

# shellcheck source=SCRIPTDIR/../common.sh
. "$(dirname "$0")/../common.sh"

cat >script <<'SCRIPT'
0000000000000050 XSTART ABC
0000000000000060 XADDPAIR ABC VOLUME(PRIM01,SEC001)
0000000000000090 XEND ABC
SCRIPT

# A site with one pair of so many cylinders, after its run, and volume 1 for the third copy.
new_site() {
    tracks=$((cylinders * 15))
    last=$((tracks - 1))

    # The trace of a volume PRIM01: track 3 gets a record with the content AB, which becomes Z, and the last track gets one with END.
    rm -f control state journal.* volume.* trace.0
    {
        echo "volume PRIM01 $cylinders"
        echo 'write 0000000000000064 0 3 1::"AB"'
        echo "write 0000000000000064 0 $last 1::\"END\""
        echo 'update 000000000000006E 0 3 1 "Z"'
    } | trace >trace.0

    # A control, a state, two journals, and two volumes with room for the cylinders.
    truncate -s 1024 control
    truncate -s 16384 state
    truncate -s 1826816 journal.0 journal.1
    truncate -s $((512 + tracks * 57344)) volume.0 volume.1
    "$program" init 0 SEC001 "$cylinders" >labelled || fail "volume 0 gets no label"
    "$program" init 1 THIRD1 "$cylinders" >labelled || fail "volume 1 gets no label"
    "$program" run ABC 1 <script >replies || fail "the run ends with $?"
}

# The number of the progress on volume 1 with the greater number: so many cylinders are done.
progress() {
    first=0 second=0
    [ "$(volume_bytes 1 16 1)" != 01 ] || first=$(printf '%d' "0x$(volume_bytes 1 21 8)")
    [ "$(volume_bytes 1 80 1)" != 01 ] || second=$(printf '%d' "0x$(volume_bytes 1 85 8)")
    if [ "$first" -gt "$second" ]; then echo "$first"; else echo "$second"; fi
}

# Kills a copy as soon as it has noted a progress. Fails if the copy had ended by then, or had less than two cylinders left.
killed_midway() {
    "$program" copy ABC 1 >copied &
    running=$!
    looks=0
    while [ "$(volume_bytes 1 16 1)" != 01 ]; do
        looks=$((looks + 1))
        [ "$looks" -lt 20000 ] || fail "the copy notes no progress"
    done
    kill -9 "$running" 2>/dev/null || true
    ended=0
    wait "$running" 2>/dev/null || ended=$?
    running=
    [ "$ended" -eq 0 ] || [ "$ended" -eq 137 ] || fail "the copy ends with $ended"
    done=$(progress)
    [ "$ended" -eq 137 ] && [ "$done" -ge 1 ] && [ "$done" -le $((cylinders - 2)) ]
}

# A fast machine may be done before the copy is killed. Then it is tried again, with more cylinders.
cylinders=200
new_site
until killed_midway; do
    cylinders=$((cylinders * 2))
    [ "$cylinders" -le 1600 ] || fail "no copy was killed midway"
    new_site
done
cat replies
echo
echo "The copy was killed after its first cylinder."
echo "Its progress on volume 1 tells that $done of $cylinders cylinders are done."
check_slot 1 3 0001010000025a00 "record 1 with Z and a zero, as on the secondary"
[ "$(slot 1 "$last" 8)" = 0000000000000000 ] || fail "the last track is there already"

# A byte that is changed in the slot of a track that is done shows whether the slot is written again. It is put back later.
bytes FF | dd of=volume.1 bs=1 seek=$((512 + 3 * 57344 + 6)) conv=notrunc 2>/dev/null
echo
echo "xrc copy ABC 1 says:"
"$program" copy ABC 1 >copied || fail "the second copy ends with $?"
printf 'COPIED ABC T=0000000000000090\nPAIR PRIM01 SEC001 DUPLEX\n' >wanted
check_said copied wanted
[ "$(slot 1 3 8)" = 000101000002ff00 ] || fail "a track that was done is written again"
bytes 5A | dd of=volume.1 bs=1 seek=$((512 + 3 * 57344 + 6)) conv=notrunc 2>/dev/null
cmp -s -i 512 volume.0 volume.1 || fail "the third volume differs from the secondary"
[ "$(volume_bytes 1 0 14)" = "58564f4c544849524431$(printf '%08x' "$cylinders")" ] || fail "the third volume's label is another"
echo "It went on after what was done. All slots of volume 1 are those of volume 0, and it has its own label."
echo
echo "xrc copy ABC 2 says:"
status=0
"$program" copy ABC 2 >copied 2>sentence || status=$?
printf 'STATUS 26 VOLUME 0\n' >wanted
check_said copied wanted
[ "$status" -eq 26 ] || fail "a copy without a target ends with $status"
cat sentence
