#!/bin/sh
# Times whole runs of the program against a loop that does nothing but write as many bytes with as many syncs to the same disk, and
# prints the ratios. The first word names a workload, or is `all`; the second divides the size of each, for a quick look.
set -eu

repository=$(cd "$(dirname "$0")/../.." && pwd)
xrc=$repository/crates/xrc/out/xrc
rounds=${ROUNDS:-2}

fail() {
    printf 'run: %s\n' "$1" >&2
    exit 1
}

# The program is proved and built where that was not done yet.
find_program() {
    [ -x "$xrc" ] && return
    command -v rt >/dev/null || fail "the toolchain's command rt is not installed"
    said=$(cd "$repository/crates/xrc" && rt run </dev/null 2>&1) || true
    [ -x "$xrc" ] && return
    printf '%s\n' "$said" >&2
    fail "the program was not built"
}

# Goes to a new folder, which is removed when the script ends or is stopped.
enter_folder() {
    folder=$(mktemp -d "${TMPDIR:-/tmp}/bench.XXXXXX")
    trap 'rm -rf "$folder"' EXIT
    trap 'exit 1' HUP INT TERM
    cd "$folder" || exit
}

# Runs a command again and again.
repeat() {
    round=1
    while [ "$round" -le "$rounds" ]; do
        "$@"
        round=$((round + 1))
    done
}

# Runs a command, and leaves its time in $took, in milliseconds.
measure() {
    begun=$(date +%s%N)
    "$@"
    ended=$(date +%s%N)
    took=$(((ended - begun) / 1000000))
    [ "$took" -gt 0 ] || took=1
}

# One number in hundredths of another.
ratio() {
    echo "$(($1 * 100 / $2)) / 100"
}

# Writes the trace of a controller. Volumes are counted over all controllers. Each write has a stamp of its own, from 1000 on, and is
# of another track than the one before: the volumes take turns, then the tracks, then the records.
write_trace() {
    LC_ALL=C awk -v controls="$controls" -v control="$1" -v volumes="$volumes" -v cylinders="$cylinders" \
        -v base="$base" -v kind="$kind" -v writes="$writes" '
    function repeated(text, times,    all) {
        for (all = ""; times > 0; times--) all = all text
        return all
    }
    function put_two(number) {
        printf "%c%c", int(number / 256), number % 256
    }
    function put_stamp(stamp) {
        printf "%c%c%c%c%c%c", 0, 0, 0, 0, int(stamp / 16777216), int(stamp / 65536) % 256
        put_two(stamp % 65536)
    }
    function put_place(volume, track) {
        printf "%c%c%c%c%c%c", 0, volume, int(track / 3840), int(track / 15) % 256, 0, track % 15
    }
    function put_small_image(    number) {
        put_two(12)
        for (number = 1; number <= 12; number++) printf "%c%c%c%c%s", number, 0, 0, 80, before
    }
    function put_full_image() {
        printf "%c%c%c%c%c%c%s", 0, 1, 1, 0, 221, 80, content
    }
    function put_header(    volume) {
        printf "XTR1"
        put_two(own)
        for (volume = first; volume < first + own; volume++) {
            printf "PRIM%02d", volume
            put_two(cylinders)
        }
    }
    function put_base(    count, volume, track) {
        count = base == "empty" ? 0 : own * tracks
        put_two(int(count / 65536))
        put_two(count % 65536)
        for (volume = 0; count > 0 && volume < own; volume++)
            for (track = 0; track < tracks; track++) {
                put_place(volume, track)
                if (base == "full") put_full_image()
                else put_small_image()
            }
    }
    function put_write(number, volume, turn) {
        printf "%c", kind == "whole" ? 4 : 2
        put_stamp(4096 + number)
        put_place(volume, turn % tracks)
        if (kind == "whole") put_full_image()
        else printf "%c%c%c%s", 1 + int(turn / tracks) % 12, 0, 80, bytes
    }
    BEGIN {
        own = volumes / controls
        first = control * own
        tracks = 15 * cylinders
        before = repeated("A", 80)
        bytes = repeated("Z", 80)
        content = repeated("Z", 56656)
        put_header()
        put_base()
        for (number = 0; number < writes; number++) {
            volume = number % volumes - first
            if (volume >= 0 && volume < own) put_write(number, volume, int(number / volumes))
        }
    }'
}

make_traces() {
    control=0
    while [ "$control" -lt "$controls" ]; do
        write_trace "$control" >"trace.$control"
        control=$((control + 1))
    done
}

# The script: all volumes are copied, and then there are so many queries, evenly over the writes.
make_script() {
    LC_ALL=C awk -v volumes="$volumes" -v writes="$writes" -v queries="$queries" 'BEGIN {
        print "0000000000000050 XSTART ABC"
        for (volume = 0; volume < volumes; volume++)
            printf "0000000000000060 XADDPAIR ABC VOLUME(PRIM%02d,SEC0%02d)\n", volume, volume
        print "0000000000000080 XQUERY ABC"
        for (number = 1; number <= queries; number++)
            printf "%016X XQUERY ABC\n", 4095 + int(writes * number / queries)
        print "00000000FFFFFFFF XEND ABC"
    }' >script
}

# Makes the devices. All their bytes are on the disk before the run.
make_site() {
    head -c 1024 /dev/zero >control
    head -c 16384 /dev/zero >state
    head -c 67108864 /dev/zero >journal.0
    head -c 67108864 /dev/zero >journal.1
    volume=0
    while [ "$volume" -lt "$volumes" ]; do
        {
            printf 'XVOLSEC0%02d\000\000' "$volume"
            # shellcheck disable=SC2059
            printf "\\$(printf %03o $((cylinders / 256)))\\$(printf %03o $((cylinders % 256)))"
            head -c $((512 - 14 + cylinders * 860160)) /dev/zero
        } >"volume.$volume"
        volume=$((volume + 1))
    done
}

# The bytes that were written, and the processor's hundredths of seconds in the program and for it, of this script and all that it started.
take_counts() {
    while read -r name value; do
        [ "$name" != wchar: ] || written=$value
    done <"/proc/$$/io"
    read -r counts <"/proc/$$/stat"
    # shellcheck disable=SC2086
    set -- ${counts##*) }
    in_program=$((${12} + ${14}))
    in_kernel=$((${13} + ${15}))
}

# A number of 8 bytes at a place of the control.
number_at() {
    od -An -v --endian=big -tu8 -j "$1" -N 8 control | tr -d ' '
}

greater() {
    echo $(($1 > $2 ? $1 : $2))
}

# The syncs of a run, by the last mark and the orders of writes: 2 of a record, 4 of a mark, and one of each volume that was written
# since the mark before. A group has up to 32 tracks to copy or writes of each controller, and these are of all its volumes; a
# query ends a group.
reckon_syncs() {
    marks=$(greater "$(number_at 5)" "$(number_at 517)")
    records=$(($(greater "$(number_at 32)" "$(number_at 544)") - 1))
    copies=$(((15 * cylinders + 31) / 32))
    spans=$(greater "$queries" 1)
    groups=$((spans * ((writes / controls / spans + 31) / 32)))
    syncs=$((1 + 2 * records + 4 * marks + volumes * (copies + groups)))
}

# Writes as many bytes with as many syncs, over bytes that are on the disk already, and does nothing else.
plain() {
    size=$((bytes / syncs))
    most=$((plain_size / size))
    left=$syncs
    while [ "$left" -gt 0 ]; do
        dd if=/dev/zero of=plain bs="$size" count=$((left < most ? left : most)) conv=notrunc oflag=dsync 2>dd.out
        left=$((left - most))
    done
}

ours() { "$xrc" run ABC "$controls" <script >replies; }

# All was said and all pairs were duplex at each query, and the volumes hold what was copied or written last.
check() {
    [ "$(wc -l <replies)" -eq $((2 + volumes + (1 + queries) * (2 + controls + volumes))) ] || fail "lines of replies are missing"
    [ "$(grep -c '^PAIR .* DUPLEX$' replies)" -eq $((volumes * (1 + queries))) ] || fail "not all pairs were duplex"
    [ "$(cat volume.* | tr -dc Z | wc -c)" -eq "$contents" ] || fail "the volumes hold something else"
}

run_round() {
    make_site
    sync
    take_counts
    begun_written=$written begun_program=$in_program begun_kernel=$in_kernel
    measure ours
    mine=$took
    take_counts
    bytes=$((written - begun_written))
    reckon_syncs
    check
    measure plain
    theirs=$took
    [ "$round" -gt 1 ] || best_mine=$mine best_theirs=$theirs
    [ "$best_mine" -lt "$mine" ] || best_mine=$mine
    [ "$best_theirs" -lt "$theirs" ] || best_theirs=$theirs
    read -r load rest </proc/loadavg
    echo "$workload, round $round: xrc $mine ms (processor $((10 * (in_program - begun_program))) ms, in the kernel $((10 * (in_kernel - begun_kernel))) ms)," \
        "$syncs syncs, $bytes bytes; loop $theirs ms; ratio $(ratio "$mine" "$theirs"); load $load"
}

# Runs the workload that these variables describe.
run_workload() {
    case $kind in
    update) contents=$((80 * (writes < 180 * volumes * cylinders ? writes : 180 * volumes * cylinders))) ;;
    whole) contents=$((56656 * (writes < 15 * volumes * cylinders ? writes : 15 * volumes * cylinders))) ;;
    copy) contents=$((56656 * 15 * volumes * cylinders)) ;;
    esac
    make_traces
    make_script
    cat trace.* >/dev/null
    repeat run_round
    echo "$workload, best of each: xrc $best_mine ms, loop $best_theirs ms, ratio $(ratio "$best_mine" "$best_theirs")"
    rm -f trace.* volume.*
}

# The cylinders of the volume that is copied: those of a 3390-3 if the disk has room for the trace, the volume and the rest, and memory for
# the primary's tracks; else fewer.
cylinders_to_copy() {
    disk=$(df -Pk . | awk 'NR == 2 { print $4 }')
    memory=$(awk '$1 == "MemAvailable:" { print $2 }' /proc/meminfo)
    if [ "$disk" -gt 7000000 ] && [ "$memory" -gt 4000000 ]; then
        echo 3339
    else
        echo 300
    fi
}

# A size, divided, and 1 at least.
sized() {
    echo $(($1 / part > 0 ? $1 / part : 1))
}

describe() {
    base=small kind=update queries=0 volumes=8 cylinders=20
    case $1 in
    one) controls=1 writes=$(sized 2000000) ;;
    four) controls=4 writes=$(sized 2000000) ;;
    tracks) base=empty kind=whole controls=2 volumes=2 cylinders=$(sized 100) writes=$(sized 18952) ;;
    sixteen) controls=16 volumes=16 writes=$(sized 160000) queries=$(sized 100) ;;
    copy) base=full kind=copy controls=1 volumes=1 cylinders=$(sized "$(cylinders_to_copy)") writes=0 ;;
    queries) controls=1 volumes=1 writes=$(sized 20000) queries=$(sized 20000) ;;
    *) fail "say one, four, tracks, sixteen, copy, queries or all, and a number that divides the sizes" ;;
    esac
}

part=${2:-1}
plain_size=268435456
wanted=${1:-all}
[ "$wanted" != all ] || wanted='one four tracks sixteen copy queries'
find_program
enter_folder
head -c "$plain_size" /dev/zero >plain
for workload in $wanted; do
    describe "$workload"
    run_workload
done
