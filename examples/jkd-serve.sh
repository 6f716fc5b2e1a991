#!/bin/sh
# Runs `jkd serve` and ends it in order: on TERM and INT it asks by `jkd stop`, so that requests under way are answered and the
# journals are kept whole. With --journal DIR each run has a directory of its own in DIR, named by its start, since a run writes
# over no segment of another one.
#
# usage: examples/jkd-serve.sh PROGRAM WORDS..      WORDS are those of `serve`
# It ends with the status of `serve`, with 2 without a PROGRAM, and with 4 where a directory can't be made.
set -u
if [ $# -eq 0 ]; then
    echo "usage: examples/jkd-serve.sh PROGRAM WORDS.." >&2
    exit 2
fi
jkd=$1
shift
work=
control=

# Makes a directory of this run's own in $1, and tells it as `own`.
make_own() {
    own=$1/$(date -u +%Y%m%dT%H%M%SZ)-$$
    mkdir -p "$own" || exit 4
}

clear_work() {
    [ -z "$work" ] || rm -rf "$work"
}
trap clear_work EXIT

# Each word in turn goes to the end of the words, with the journal's directory put in its place.
left=$#
awaited=
ended=
while [ "$left" -gt 0 ]; do
    word=$1
    shift
    left=$((left - 1))
    if [ -n "$awaited" ]; then
        case $awaited in
        journal) make_own "$word"; word=$own ;;
        control) control=$word ;;
        esac
        awaited=
    elif [ -z "$ended" ]; then
        case $word in
        --) ended=yes ;;
        --journal) awaited=journal ;;
        --control) awaited=control ;;
        --journal=*) make_own "${word#*=}"; word=--journal=$own ;;
        --control=*) control=${word#*=} ;;
        --*=*) ;;
        --*) awaited=other ;;
        esac
    fi
    set -- "$@" "$word"
done

if [ -z "$control" ]; then
    work=$(mktemp -d) || exit 4
    control=$work/control
    set -- --control "$control" "$@"
fi

# Asks the front to end. Where it can't be asked, since it isn't there yet or is gone, it is ended.
asked=
stop() {
    asked=yes
    "$jkd" stop "$control" || kill "$front" 2>/dev/null
}

"$jkd" serve "$@" &
front=$!
trap stop TERM INT

# A signal ends the wait before the front does; then it is waited for once more.
wait "$front"
status=$?
while [ -n "$asked" ]; do
    asked=
    wait "$front"
    last=$?
    [ "$last" -eq 127 ] || status=$last
done
exit "$status"
