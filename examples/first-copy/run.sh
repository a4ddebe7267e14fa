#!/bin/sh
# Labels a volume in a temporary folder and copies onto it by two traces in turn, asks how far the pair is, shows what is said and what
# stands in the slots, and checks both.
set -eu

# shellcheck source=SCRIPTDIR/../common.sh
. "$(dirname "$0")/../common.sh"

# A session starts, a pair is added, an operator asks how far it is, and the session ends.
cat >script <<'SCRIPT'
0000000000000050 XSTART ABC
0000000000000060 XADDPAIR ABC VOLUME(PRIM01,SEC001)
0000000000000080 XQUERY ABC
0000000000000090 XEND ABC
SCRIPT

# The pair has 15 tracks to copy. At 80 all of them stand on the secondary, so the pair is duplex.
cat >wanted <<'WANTED'
0000000000000050 XSTART OK T=0000000000000050
0000000000000060 XADDPAIR OK TRACKS 15 T=0000000000000060
SESSION ABC LEVEL VOLUME JOURNALED 0000000000000080 PAIRS 1
CONTROL 0 OK
PAIR PRIM01 SEC001 DUPLEX
0000000000000080 XQUERY OK T=0000000000000080
0000000000000090 XEND OK T=0000000000000090
WANTED

# The volume of the new devices has one cylinder, and so 15 tracks.
echo 'VOLUME 0 SEC001 TRACKS 15' >wanted_label

# Copies by the trace that is there, onto new devices, and checks what is said.
copy() {
    new_devices 1 1
    echo "xrc init 0 SEC001 1 says:"
    check_said labelled wanted_label
    [ "$(volume_bytes 0 0 14)" = 58564f4c53454330303100000001 ] || fail "the label is another"
    status=0
    "$program" run ABC 1 <script >replies || status=$?
    echo "xrc run ABC 1 says:"
    check_said replies wanted
    [ "$status" -eq 0 ] || fail "the status is $status and not 0"
    [ "$(volume_bytes 0 0 14)" = 58564f4c53454330303100000001 ] || fail "the label has changed"
}

# The trace of a volume PRIM01 of one cylinder: at time 64 track 3 gets one record, number 1, with the content AB.
trace >trace.0 <<'LINES'
volume PRIM01 1
write 0000000000000064 0 3 1::"AB"
LINES
copy
check_slot 0 3 0001010000024142 "record 1 with AB"
check_slot 0 0 0000 "no record"
echo "The volume was copied."
echo

# A second trace of that volume, with updates and formats.
trace >trace.0 <<'LINES'
volume PRIM01 1
# At time 10 track 3 gets the records 1, 2 and 3 with the contents AB, CD and EF.
write 0000000000000010 0 3 1::"AB" 2::"CD" 3::"EF"
# At 58 its record 2 is updated by X, which is filled with a zero.
update 0000000000000058 0 3 2 "X"
# At 64 it is formatted after record 2: record 3 is erased, and record 4 gets the key K and the content GHI.
format 0000000000000064 0 3 2 4:"K":"GHI"
# At 70 track 5, which is empty, is formatted from its start: record 1 gets the content N.
format 0000000000000070 0 5 0 1::"N"
# At 90 record 1 of track 3 is updated by YZW, which is cut to YZ.
update 0000000000000090 0 3 1 "YZW"
# At 91 it is updated by V, which is not copied any more.
update 0000000000000091 0 3 1 "V"
LINES
copy
check_slot 0 3 000301000002595a020000025800040100034b474849 "record 1 with YZ, record 2 with X and a zero, record 4 with the key K and GHI"
check_slot 0 5 0001010000014e "record 1 with N"
check_slot 0 0 0000 "no record"
echo "The volume was copied and followed. The write of 91 came after the session's end at 90."
echo

# A trace that is cut within its header.
head -c 3 trace.0 >front
mv front trace.0
new_devices 1 1
status=0
"$program" run ABC 1 <script >replies 2>why || status=$?
[ "$status" -eq 8 ] || fail "the status is $status and not 8"
echo 'STATUS 8 0 0' >wanted
echo 'xrc: trace 0 breaks a rule at byte 0: mend the trace and run again' >wanted_why
echo "Of a trace that is cut within its header it says on standard output and on standard error:"
check_said replies wanted
check_said why wanted_why
