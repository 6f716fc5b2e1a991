#!/bin/sh
# Shows jkd at work, and ends by itself: two containers, a front before them, one of them ended, the status page, and the journal
# that was written. It stops at the first thing that isn't as it ought to be, and says what that is.
#
# usage: examples/try.sh PROGRAM      PROGRAM is the program jkd, as `rt run` builds it
# It needs curl, and the ports 8080, 8109 and 8209. Status: 0 all was as it ought to be; 1 else; 2 no PROGRAM.
set -u
if [ $# -ne 1 ]; then
    echo "usage: examples/try.sh PROGRAM" >&2
    exit 2
fi
jkd=$1
here=$(cd "$(dirname "$0")" && pwd)
site=$here/two-containers
front=http://127.0.0.1:8080
work=$(mktemp -d) || exit 1
mkdir "$work/journal"
: >"$work/said"
running=

say() { printf '\n== %s\n' "$1"; }

# Ends the script with the reason, after what the programs said.
fail() {
    sed 's/^/    /' "$work/said" >&2
    printf 'try.sh: %s\n' "$1" >&2
    exit 1
}

stop_all() {
    for number in $running; do kill "$number" 2>/dev/null; done
    rm -rf "$work"
}
trap stop_all EXIT

# Starts a program in the background, which listens at a port, and waits for 10 seconds at most until it says so.
start() {
    port=$1
    shift
    "$@" 2>>"$work/said" &
    last=$!
    running="$running $last"
    tries=0
    until grep -q "listening on 127.0.0.1:$port " "$work/said"; do
        kill -0 "$last" 2>/dev/null || fail "this ended before it listened at port $port: $*"
        [ $tries -lt 100 ] || fail "this doesn't listen at port $port after 10 seconds: $*"
        tries=$((tries + 1))
        sleep 0.1
    done
}

# Asks the front, and prints the answer, whose status has to be good.
ask() {
    curl -sS --fail --max-time 10 "$@" || fail "no good answer: curl $*"
}

# Asks for /who with the session's cookie, and wants this container.
ask_session() {
    got=$(curl -sS --fail --max-time 10 -H "Cookie: $cookie" $front/who) || fail "no good answer to the session $cookie"
    printf '%s\n' "$got"
    [ "$got" = "$1" ] || fail "the session $cookie was answered by $got, and $1 was wanted"
}

[ -x "$jkd" ] || fail "there is no program $jkd: build it by (cd crates/jkd && rt run < stdin)"
command -v curl >/dev/null || fail "curl isn't there"

say "two containers and the front"
start 8109 "$jkd" container n1 127.0.0.1:8109 4
n1=$last
start 8209 "$jkd" container n2 127.0.0.1:8209 4
n2=$last
start 8080 "$jkd" serve "$site/workers.properties" "$site/uriworkermap.properties" 127.0.0.1:8080 2 \
    --control "$work/control" --journal "$work/journal"
server=$last
cat "$work/said"

say "six requests: n2 has twice the factor of n1"
for _ in 1 2 3 4 5 6; do ask -H 'Connection: close' $front/who; done

say "a session stays with its container"
ask -D "$work/head" -o /dev/null $front/session
cookie=$(sed -n 's/^Set-Cookie: \([^;]*\);.*/\1/p' "$work/head")
[ -n "$cookie" ] || fail "/session set no cookie"
printf '%s\n' "$cookie"
home=${cookie##*.}
ask_session "$home"
ask_session "$home"

case $home in
n1) ended=$n1 other=n2 ;;
*) ended=$n2 other=n1 ;;
esac
say "$home is ended: its session goes on with $other, and $home is in error"
kill "$ended"
wait "$ended" 2>/dev/null
ask_session "$other"
ask_session "$other"

say "the status page"
page=$(ask $front/jkstatus) || exit 1
printf '%s\n' "$page"
printf '%s\n' "$page" | grep -q "^$home A error " || fail "$home isn't in error"

say "$other gets the factor 5"
ask "$front/jkstatus?cmd=update&w=lb&sw=$other&vwf=5"

say "the front is told to end"
"$jkd" stop "$work/control" || fail "jkd stop ended with status $?"
wait "$server"
status=$?
printf 'status %s\n' $status
[ $status -eq 0 ] || fail "the front ended with status $status, and 0 was wanted"
ls "$work/journal"

say "the journal that it wrote is checked"
cat "$work"/journal/lb-*.jkj >"$work/lb.jkj" || fail "no journal of lb was written"
"$jkd" check <"$work/lb.jkj" || fail "the journal isn't good"
