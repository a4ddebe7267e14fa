#!/bin/sh
# Pairs a volume of 1,000,000 cylinders, whose secondary is a sparse file of 860 gigabytes, and shows what time and memory the program takes for
# it. The session is killed while it copies the pair, and recovered. Then a site whose pair is duplex is recovered: the last track is written.
set -eu

# shellcheck source=SCRIPTDIR/../common.sh
. "$(dirname "$0")/../common.sh"

cylinders=1000000
last=14999999
last_digits='00 E4 E1 BF'
bytes_of_volume=$((512 + 15 * cylinders * 57344))

are_replied() {
    [ "$(wc -l <replies)" -ge "$1" ]
}

# The processor time of the session so far, in hundredths of a second, and the most memory that it has had, in kilobytes.
processor_time() {
    awk '{ print $14 + $15 }' "/proc/$running/stat"
}

memory() {
    awk '/^VmHWM/ { print $2 }' "/proc/$running/status"
}

truncate -s 1024 control
truncate -s 16384 state
truncate -s 1826816 journal.0 journal.1
if ! truncate -s "$bytes_of_volume" volume.0 2>why; then
    echo "This file system has no room for a sparse file of $bytes_of_volume bytes, so there is nothing to show: $(cat why)"
    exit 0
fi

echo "A volume has at most 1,000,000 cylinders:"
status=0
"$program" init 0 SEC001 $((cylinders + 1)) >labelled 2>why || status=$?
[ "$status" -eq 2 ] || fail "a label of $((cylinders + 1)) cylinders ends with $status"
"$program" init 0 SEC001 "$cylinders" || fail "volume 0 gets no label"
[ "$(volume_bytes 0 0 14)" = 58564f4c534543303031000f4240 ] || fail "volume 0 has another label"
echo

{
    echo 'version 2'
    echo "volume PRIM01 $cylinders"
    echo "write 0000000000000064 0 $last 1::\"END\""
    echo 'idle 0000000000000090'
} | trace >trace.0

mkfifo console
: >replies
"$program" run ABC 1 <console >replies &
running=$!
exec 3>console
printf '0000000000000050 XSTART ABC\n' >&3
wait_until "the start is not answered" are_replied 1
before=$(processor_time)
printf '0000000000000060 XADDPAIR ABC VOLUME(PRIM01,SEC001)\n' >&3
wait_until "the pair is not added" are_replied 2
taken=$(($(processor_time) - before))
printf '0000000000000070 XQUERY ABC\n' >&3
cat replies
echo
echo "For the second reply the program took $taken hundredths of a second of processor time."
[ "$taken" -lt 100 ] || fail "the pair is added after $taken hundredths of a second"

is_copied() {
    [ "$(slot 0 "$((32 * 20))" 2)" = 0001 ] || [ "$(du -k volume.0 | cut -f1)" -ge 20000 ]
}
wait_until "nothing is copied" is_copied
most=$(memory)
echo "Its first groups are copied, and it has $most kilobytes of memory."
[ "$most" -lt 65536 ] || fail "that is more than 64 megabytes"
crash
exec 3>&-
echo
recover
grep -q '^PAIR PRIM01 SEC001 COPY$' recovered || fail "the pair is not called one that is copied"

# A site as bytes: its mark, a state of version 2 with the duplex pair, and a journal with an image of the last track.
put() {
    bytes "$3" | dd of="$1" bs=1 seek="$2" conv=notrunc 2>/dev/null
}
echo
echo "On a site whose pair is duplex, and whose journal has an image of the last track:"
truncate -s 0 control state journal.0 journal.1
truncate -s 1024 control
truncate -s 16384 state
truncate -s 1826816 journal.0 journal.1
session='41 42 43 20 20 20 20 20'
put control 0 "01 58 43 54 4C 00 00 00 00 00 00 00 01 $session 00 00 00 00 00 00 00 00 00 00 00 00 00 00 00 00 00 00 01 00 00 00 00 00 00 00 50 00"
put state 0 "58 53 54 32 $session 00 00 01 50 52 49 4D 30 31 53 45 43 30 30 31 00 00 00 00 00 00 00 0F 42 40 02 00 00 00 00 00 00 00 00 00 20 20 20 20 20 20"
put journal.0 0 "01 01 00 00 00 00 00 00 00 01 00 00 00 00 00 00 00 80 00 00 00 0F 01 00 00 $last_digits 00 01 01 00 00 02 5A 00"
recover
grep -q '^PAIR PRIM01 SEC001 DUPLEX$' recovered || fail "the pair is not duplex"
check_slot 0 "$last" 0001010000025a00 "record 1 with Z and a zero"
[ "$(volume_bytes 0 0 14)" = 58564f4c5052494d3031000f4240 ] || fail "volume 0 does not have its primary's label"
echo "Volume 0 has its primary's label, of $cylinders cylinders."
