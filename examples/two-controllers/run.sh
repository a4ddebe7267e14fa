#!/bin/sh
# Copies three volumes of two controllers in a temporary folder, suspends a pair and resynchronises it, kills the program in the middle, and
# recovers. Shows and checks what is said and what the secondaries hold.
set -eu

# shellcheck source=SCRIPTDIR/../common.sh
. "$(dirname "$0")/../common.sh"

cat >script <<'SCRIPT'
0000000000000050 XSTART ABC
0000000000000060 XADDPAIR ABC VOLUME(PRIM01,SEC001)
0000000000000060 XADDPAIR ABC VOLUME(PRIM02,SEC002)
0000000000000060 XADDPAIR ABC VOLUME(PRIM03,SEC003)
0000000000000080 XQUERY ABC
0000000000000100 XSUSPEND ABC VOLUME(PRIM02,SEC002)
0000000000000120 XQUERY ABC
0000000000000200 XADDPAIR ABC VOLUME(PRIM02,SEC002)
0000000000000210 XQUERY ABC
0000000000000300 XEND ABC
SCRIPT

# What the program says up to 210. The suspended pair gets back only the two tracks that were written meanwhile.
cat >wanted <<'WANTED'
0000000000000050 XSTART OK T=0000000000000050
0000000000000060 XADDPAIR OK TRACKS 15 T=0000000000000060
0000000000000060 XADDPAIR OK TRACKS 15 T=0000000000000060
0000000000000060 XADDPAIR OK TRACKS 15 T=0000000000000060
SESSION ABC LEVEL VOLUME JOURNALED 0000000000000080 PAIRS 3
CONTROL 0 OK
CONTROL 1 OK
PAIR PRIM01 SEC001 DUPLEX
PAIR PRIM02 SEC002 DUPLEX
PAIR PRIM03 SEC003 DUPLEX
0000000000000080 XQUERY OK T=0000000000000080
0000000000000100 XSUSPEND OK T=0000000000000100
SESSION ABC LEVEL VOLUME JOURNALED 0000000000000120 PAIRS 3
CONTROL 0 OK
CONTROL 1 OK
PAIR PRIM01 SEC001 DUPLEX
PAIR PRIM02 SEC002 SUSPENDED COMMAND SINCE 0000000000000100
PAIR PRIM03 SEC003 DUPLEX
0000000000000120 XQUERY OK T=0000000000000120
0000000000000200 XADDPAIR OK TRACKS 2 T=0000000000000200
SESSION ABC LEVEL VOLUME JOURNALED 0000000000000210 PAIRS 3
CONTROL 0 OK
CONTROL 1 OK
PAIR PRIM01 SEC001 DUPLEX
PAIR PRIM02 SEC002 DUPLEX
PAIR PRIM03 SEC003 DUPLEX
0000000000000210 XQUERY OK T=0000000000000210
WANTED

# The trace of controller 0, with the volumes PRIM01 and PRIM02 of one cylinder each.
trace >trace.0 <<'LINES'
volume PRIM01 1
volume PRIM02 1
# At time 64 track 3 of PRIM01 gets record 1 with AB, and at 66 track 1 of PRIM02 gets record 1 with CD.
write 0000000000000064 0 3 1::"AB"
write 0000000000000066 1 1 1::"CD"
# While the pair of PRIM02 is suspended, its track 1 is updated by EF at 110, and its track 7 gets record 1 with N at 118.
update 0000000000000110 1 1 1 "EF"
write 0000000000000118 1 7 1::"N"
# Track 3 of PRIM01 is updated by GH at 230, and by IJ at 250.
update 0000000000000230 0 3 1 "GH"
update 0000000000000250 0 3 1 "IJ"
LINES

# The trace of controller 1, with the volume PRIM03 of one cylinder, up to 245. There the controller falls silent. At 68 track 5 gets
# record 1 with KL. At 235 it is updated by MN, and track 9 gets 31 writes; at 240 it is updated by OP.
front() {
    {
        echo 'volume PRIM03 1'
        echo 'write 0000000000000068 0 5 1::"KL"'
        echo 'update 0000000000000235 0 5 1 "MN"'
        writes=0
        while [ "$writes" -lt 31 ]; do
            echo 'write 0000000000000235 0 9 1::"W"'
            writes=$((writes + 1))
        done
        echo 'update 0000000000000240 0 5 1 "OP"'
        echo 'idle 0000000000000245'
    } | trace
}

# Whether track 5 of PRIM03 has come after the first write to it.
is_updated() {
    case $(slot 2 5 8) in
    0001010000024d4e | 0001010000024f50) true ;;
    *) false ;;
    esac
}

new_devices 2 3
mkfifo trace.1
(front; exec sleep 600) >trace.1 &
writing=$!
"$program" run ABC 2 <script >replies &
running=$!
wait_until "no write of 235 came to the secondary" is_updated
crash
echo "Controller 0 has told all that it wrote, up to 250. Controller 1 fell silent at 245, and the program was killed while it waited."
echo "It had said:"
check_said replies wanted
echo
recover

# 32 writes of a controller may wait at once. So the write of 240 could wait only once those of 235 were in a group, whose time is 23F.
# No rule says whether a group with the write of 240 had been journaled when the program was killed. Its time is 244.
case $(head -n 1 recovered) in
'RECOVERED ABC T=000000000000023F') time=23F track=0001010000024d4e content=MN ;;
'RECOVERED ABC T=0000000000000244') time=244 track=0001010000024f50 content=OP ;;
*) fail "the time is neither 23F nor 244" ;;
esac
printf 'PAIR PRIM01 SEC001 DUPLEX\nPAIR PRIM02 SEC002 DUPLEX\nPAIR PRIM03 SEC003 DUPLEX\n' >wanted
tail -n +2 recovered | cmp -s wanted - || fail "not all pairs are duplex"
echo
echo "All three secondaries stand at one time, $time, up to which both controllers had told their writes:"
check_slot 0 3 0001010000024748 "GH of 230. IJ of 250 is not there, since it is after $time, although controller 0 had told it"
check_slot 1 1 0001010000024546 "EF of 110, which was written while the pair was suspended"
check_slot 1 7 0001010000014e "N of 118, which was written while the pair was suspended"
check_slot 2 5 "$track" "$content"
check_slot 2 9 00010100000157 "W of 235"
for device in 0 1 2; do
    [ "$(volume_bytes "$device" 0 14)" = "58564f4c5052494d303$((device + 1))00000001" ] || fail "the label of volume $device is not its primary's"
done
echo "Each volume has the label of its primary."
