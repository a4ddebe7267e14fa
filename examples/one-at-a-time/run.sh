#!/bin/sh
# Starts a second program in the folder of a running session, in a temporary folder, and shows and checks that it is turned away.
set -eu

# shellcheck source=SCRIPTDIR/../common.sh
. "$(dirname "$0")/../common.sh"

are_replied() {
    [ "$(wc -l <replies)" -ge "$1" ]
}

# Runs a command that must find the site locked: it ends with 27, says why, and says nothing on standard output.
must_be_refused() {
    status=0
    "$program" "$@" </dev/null >said 2>why || status=$?
    [ "$status" -eq 27 ] || fail "xrc $* ends with $status beside a running session"
    [ ! -s said ] || fail "xrc $* says: $(cat said)"
    [ "$(cat why)" = "xrc: another program works on this site: wait until it has ended" ] || fail "xrc $* says why: $(cat why)"
    echo "xrc $*: status 27, $(cat why)"
}

checked_devices() {
    cat control state journal.0 journal.1 volume.0 | cksum
}

echo "A session waits for its next line. Beside it, in the same folder:"
new_devices 1 1
printf 'volume PRIM01 1\nidle 0000000000000090\n' | trace >trace.0
mkfifo console
"$program" run ABC 1 <console >replies &
running=$!
exec 3>console
printf '0000000000000050 XSTART ABC\n' >&3
wait_until "the start is not answered" are_replied 1
before=$(checked_devices)
must_be_refused run ABC 1
must_be_refused recover ABC
must_be_refused advance ABC
must_be_refused query ABC
must_be_refused init 0 SEC009 1
[ "$(checked_devices)" = "$before" ] || fail "a refused program changed a device"
"$program" generate 7 >said || fail "a generated input needs the site"
[ -s said ] || fail "a generated input says nothing"

printf '0000000000000060 XADDPAIR ABC VOLUME(PRIM01,SEC001)\n0000000000000070 XEND ABC\n' >&3
exec 3>&-
wait "$running" || fail "the session ends with $?"
running=
rm -f console
cat >wanted <<'SAID'
0000000000000050 XSTART OK T=0000000000000050
0000000000000060 XADDPAIR OK TRACKS 15 T=0000000000000060
0000000000000070 XEND OK T=0000000000000070
SAID
echo "The session went on, and says in all:"
check_said replies wanted
echo

echo "A session that is killed leaves no lock:"
mkfifo console
"$program" run ABC 1 <console >replies &
running=$!
exec 3>console
printf '0000000000000050 XSTART ABC\n' >&3
wait_until "the start is not answered" are_replied 1
crash
exec 3>&-
recover
