#!/bin/sh
# Kills the program in the middle of a session in a temporary folder, recovers the site, and shows and checks the time and the slots.
set -eu

# shellcheck source=SCRIPTDIR/../common.sh
. "$(dirname "$0")/../common.sh"

# The query lies before the controller's first write, so that the pair is duplex when the writes come.
cat >script <<'SCRIPT'
0000000000000050 XSTART ABC
0000000000000060 XADDPAIR ABC VOLUME(PRIM01,SEC001)
0000000000000062 XQUERY ABC
0000000000000090 XEND ABC
SCRIPT

# The trace of a volume PRIM01 of one cylinder: at time 64 track 3 gets one record with the content AB, and track 5 gets 31 writes; at
# 6E that record becomes Z; the controller goes on to 70.
front() {
    {
        echo 'volume PRIM01 1'
        echo 'write 0000000000000064 0 3 1::"AB"'
        writes=0
        while [ "$writes" -lt 31 ]; do
            echo 'write 0000000000000064 0 5 1::"W"'
            writes=$((writes + 1))
        done
        echo 'update 000000000000006E 0 3 1 "Z"'
        echo 'idle 0000000000000070'
    } | trace
}

are_replied() {
    [ "$(wc -l <replies)" -ge 2 ]
}

is_written() {
    [ "$(slot 0 3 8)" != 0000000000000000 ]
}

echo "The program is killed after the reply to XADDPAIR, while it waits for the next line. It had said:"
new_devices 1 1
front >trace.0
mkfifo console
"$program" run ABC 1 <console >replies &
running=$!
exec 3>console
head -n 2 script >&3
wait_until "the program did not say 2 replies" are_replied
crash
exec 3>&-
rm -f console
cat replies
recover
printf 'RECOVERED ABC T=0000000000000060\nPAIR PRIM01 SEC001 PENDING\n' >wanted
cmp -s wanted recovered || fail "that is not what was wanted"
echo "The time is that of the last reply. The pair still waits for its copy, so its secondary promises nothing."
echo

echo "The program is killed while it waits for the controller, which has told its writes up to 70. It had said:"
new_devices 1 1
rm -f trace.0
mkfifo trace.0
(front; exec sleep 600) >trace.0 &
writing=$!
"$program" run ABC 1 <script >replies &
running=$!
wait_until "no write came to the slot of track 3" is_written
crash
cat replies
recover
# 32 writes of a controller may wait at once. So the write of 6E could wait only once those of 64 were in a group, whose time is 6D.
# No rule says whether a group with the write of 6E had been journaled when the program was killed. Its time is 6F.
case $(cat recovered) in
'RECOVERED ABC T=000000000000006D
PAIR PRIM01 SEC001 DUPLEX')
    check_slot 0 3 0001010000024142 "record 1 with AB, as the primary's track at 6D"
    ;;
'RECOVERED ABC T=000000000000006F
PAIR PRIM01 SEC001 DUPLEX')
    check_slot 0 3 0001010000025a00 "record 1 with Z and a zero, as the primary's track at 6F"
    ;;
*) fail "the time is neither 6D nor 6F, or the pair is not duplex" ;;
esac
check_slot 0 5 00010100000157 "record 1 with W"
[ "$(volume_bytes 0 0 14)" = 58564f4c5052494d303100000001 ] || fail "the label is not the primary's"
echo "The time is not before that of the last reply, and the volume has the primary's label."
