# shellcheck shell=bash disable=SC2154
# Cases of tests/program, which reads this file and has all that isn't here: files that are odd as an image, streams that don't wait,
# three programs at once, signals, and what others do to an image that isn't noticed.

# The system lets nobody open it for writing.
immutable_file() {
    local name='status 5: a file that nobody may change'
    fresh v
    if ! chattr +i v 2>/dev/null; then
        skip "$name" 'no file can be made so here'
        return
    fi
    run run v <<<'create /a'
    ended 5 '' "$device_fault" run
    run mkfs v 16
    ended 5 '' "$device_fault" mkfs
    chattr -i v
    unchanged v
    verdict "$name"
}

# Runs the program where its streams, and the three numbers behind them, are all that it may have: it keeps so many, so that no file of
# its own gets the number of a closed stream.
without_descriptor() {
    (exec <script >out 2>err 3>&- 4>&- 5>&-; ulimit -n 6; exec "$program" "$@")
    status=$?
    ended 5 '' "$device_fault" "$1 of $2"
}

no_descriptor() {
    fresh v
    rm -f w
    echo 'create /a' >script
    without_descriptor run v
    without_descriptor mkfs v 16
    unchanged v
    without_descriptor mkfs w 16
    holds 'a file was made' test ! -e w
    verdict 'status 5: no descriptor is left'
}

full_device() {
    local name='status 4 and 5: a device that takes nothing'
    if [[ ! -c /dev/full ]]; then
        skip "$name" '/dev/full is missing'
        return
    fi
    run run /dev/full <<<'create /a'
    ended 4 $'not a volume\n' '' run
    run mkfs /dev/full 16
    ended 5 '' "$device_fault" mkfs
    holds '/dev/full became another' test -c /dev/full
    verdict "$name"
}

dangling_link() {
    rm -rf link target
    ln -s target link
    run run link <<<'create /a'
    ended 5 '' "$device_fault" run
    holds 'a file was made' test ! -e target
    run mkfs link 16
    ended 0 "$formatted" '' mkfs
    holds 'the link is gone' test -L link
    holds 'the file has another length' test "$(length_of target)" = $((16 * page))
    run run target <<<'list /'
    ended 0 $'ok 0\n' '' 'the run after it'
    rm -f link target
    verdict 'a link to nothing: status 5, and mkfs makes the file'
}

# As long as a file can be. A file system in memory alone has one so long.
longest_file() {
    local name='a sparse file of 2^63 - 1 bytes' longest=9223372036854775807 folder
    folder=$(mktemp -d -p /dev/shm 2>/dev/null) && ln -sfn "$folder" long
    if [[ -z $folder ]] || ! truncate -s "$longest" long/v 2>/dev/null; then
        rm -rf long "${folder:-long}"
        skip "$name" 'no file system has one so long here'
        return
    fi
    run run long/v <<<'create /a'
    ended 4 $'not a volume\n' '' run
    holds 'the run changed it' is_empty_of long/v "$longest"
    run mkfs long/v 16
    ended 0 "$formatted" '' mkfs
    holds 'the file has another length' test "$(length_of long/v)" = $((16 * page))
    run run long/v <<<'list /'
    ended 0 $'ok 0\n' '' 'the run after it'
    rm -rf long "$folder"
    verdict "$name: status 4, and mkfs cuts it"
}

# Runs these words, whose stream of this number doesn't wait. Standard output is filled before.
readonly unwaiting='
import fcntl, os, sys
stream = int(sys.argv[1])
fcntl.fcntl(stream, fcntl.F_SETFL, fcntl.fcntl(stream, fcntl.F_GETFL) | os.O_NONBLOCK)
try:
    while stream == 1:
        os.write(stream, bytes(65536))
except BlockingIOError:
    pass
os.execv(sys.argv[2], sys.argv[2:])'

unwaiting_streams() {
    local name='status 6 and 7: a stream that does not wait'
    if ! command -v python3 >/dev/null; then
        skip "$name" 'python3 is missing'
        return
    fi
    fresh v
    rm -f pipe && mkfifo pipe
    exec 9<>pipe
    printf 'create /a\ncreate /b' >&9
    timeout 60 python3 -c "$unwaiting" 0 "$program" run v <&9 >out 2>err 9<&-
    status=$?
    exec 9<&-
    ended 6 $'ok\n' "$read_fault" 'a run whose script is not there yet'
    run run v <<<'list /'
    ended 0 $'ok 1 a\n' '' 'the run after it'
    rm -f pipe && mkfifo pipe
    exec 9<>pipe
    timeout 60 python3 -c "$unwaiting" 1 "$program" run v <<<$'create /b\ncreate /c' >&9 2>err 9<&-
    status=$?
    exec 9<&-
    : >out
    ended 7 '' "$write_fault" 'a run whose output is full'
    run run v <<<'list /'
    ended 0 $'ok 2 a b\n' '' 'the run after that'
    verdict "$name"
}

# The program is started three times at once with these words, each with a script of its own. What they wrote is in `out.1` to `out.3` and
# `err.1` to `err.3`, and their statuses in `statuses`.
three_at_once() {
    local number jobs=()
    statuses=()
    for number in 1 2 3; do
        "$program" "$@" <<<"create /n$number" >"out.$number" 2>"err.$number" &
        jobs+=($!)
    done
    for number in 1 2 3; do
        wait "${jobs[number - 1]}"
        statuses[number]=$?
    done
}

# Each of the three was done, and wrote this, or was refused, and one was done. The names of those that were are in `done_names`.
one_or_more_done() {
    local number text=$1
    done_names=()
    for number in 1 2 3; do
        status=${statuses[number]}
        cp "out.$number" out && cp "err.$number" err
        if ((status == 0)); then
            ended 0 "$text" '' "the one of number $number"
            done_names+=("n$number")
        else
            ended 5 '' "$device_fault" "the one of number $number"
        fi
    done
    ((${#done_names[@]})) || problems+=("none of the three was done")
}

three_programs() {
    for _ in 1 2 3 4 5; do
        rm -f v
        three_at_once mkfs v 16
        one_or_more_done "$formatted"
        run run v <<<'list /'
        ended 0 $'ok 0\n' '' 'the run after three mkfs'
        three_at_once run v
        one_or_more_done $'ok\n'
        run run v <<<'list /'
        ended 0 "ok ${#done_names[@]} ${done_names[*]}"$'\n' '' 'the run after three runs'
    done
    rm -f out.? err.?
    verdict 'three programs at once: one or more come in turn, and the others are refused'
}

# A run that waits for its next line ends by the signal, and the volume isn't closed.
signals() {
    local name='a signal ends a run that waits, and what it answered is there' signal first
    if ! env --default-signal=INT true 2>/dev/null; then
        skip "$name" 'env gives no signal back its own effect here'
        return
    fi
    for signal in INT TERM HUP KILL; do
        fresh v
        rm -f script first.out && mkfifo script
        env --default-signal=INT --default-signal=TERM --default-signal=HUP "$program" run v <script >first.out 2>first.err &
        first=$!
        exec 7<>script
        echo 'create /a' >&7
        holds 'it answered nothing within ten seconds' await has_line first.out 1
        kill "-$signal" "$first"
        wait "$first" 2>/dev/null
        status=$?
        exec 7>&-
        cp first.out out && cp first.err err
        ended $((128 + $(kill -l "$signal"))) $'ok\n' '' "a run that gets SIG$signal"
        has_mark v 0 "after SIG$signal"
        run run v <<<'list /'
        ended 0 $'ok 1 a\n' '' "the run after SIG$signal"
    done
    verdict "$name"
}

# A run answers a line, then this command is executed, and then comes another line. How the run ends is left.
run_beside() {
    local first
    fresh v
    rm -f script first.out && mkfifo script
    timeout 60 "$program" run v <script >first.out 2>first.err &
    first=$!
    exec 7<>script
    echo 'create /a' >&7
    holds 'it answered nothing within ten seconds' await has_line first.out 1
    "$@"
    echo 'create /b' >&7
    exec 7>&-
    wait "$first"
    status=$?
    cp first.out out && cp first.err err
}

# The lock is the file's and not the name's, and who asks for none may write.
unnoticed() {
    fresh w
    run_beside rm v
    ended 0 $'ok\nok\n' '' 'a run whose file is removed'
    holds 'the file is there again' test ! -e v
    run_beside mv w v
    ended 0 $'ok\nok\n' '' 'a run whose file is replaced'
    holds 'the other file was changed' cmp -s v w.before
    run_beside dd if=/dev/zero of=v bs="$page" count=16 conv=notrunc status=none
    ended 0 $'ok\nok\n' '' 'a run whose file is overwritten'
    run run v </dev/null
    ended 4 $'damaged 2 1\n' '' 'the run after it'
    verdict 'a file that is removed, replaced or overwritten while it is in use: nothing tells it'
}

# The next fence finds another length. Cut to its own the file is the volume again.
output_into_image() {
    fresh v
    "$program" run v <<<'list /' >>v 2>err
    status=$?
    : >out
    ended 0 '' '' 'a run that stores nothing'
    holds 'the reply is not at the end of the image' test "$(tail -c 5 v)" = 'ok 0'
    run run v </dev/null
    ended 4 $'not a volume\n' '' 'the run after it'
    fresh v
    "$program" run v <<<$'create /a\ncreate /b' >>v 2>err
    status=$?
    tail -c +$((16 * page + 1)) v >out
    ended 5 $'ok\nerror Fault\n' "$device_fault" 'a run that stores'
    truncate -s $((16 * page)) v
    run run v <<<'list /'
    ended 0 $'ok 1 a\n' '' 'the run once the file is cut'
    verdict 'an output that is appended to the image itself'
}
