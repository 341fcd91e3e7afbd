#!/bin/sh
# Two editors of one text, over loopback: each edits beside the other, both sync, and both show one text. Prints each command
# and what it prints, and ends by itself with status 0; or, at the first command that prints something else than expected,
# says what was expected and what was printed, with status 1. The server has the first port of 127.0.0.1 from 9000 on that is
# free.
set -u
here=$(CDPATH='' cd -- "$(dirname -- "$0")/.." && pwd) || exit 3

# The program is built first, where it is missing.
"$here/braid" check </dev/null >/dev/null || exit 3

work=$(mktemp -d) || exit 3
server=
trap 'test -z "$server" || kill "$server" 2>/dev/null; rm -rf "$work"' EXIT
trap 'exit 3' INT TERM
cd "$work" || exit 3

# Shows a command as it is typed.
show_command() {
  line='$ braid'
  for word in "$@"; do
    case $word in
      '' | *[!A-Za-z0-9./:-]*) line="$line \"$word\"" ;;
      *) line="$line $word" ;;
    esac
  done
  printf '%s\n' "$line"
}

# Goes on where a command ended with status 0 and printed what was expected; else says what differs, and ends.
compare() {
  test "$1" -eq 0 && test "$2" = "$3" && return
  printf 'This differs.\nExpected, with status 0:\n%s\nPrinted, with status %s:\n%s\n' "$3" "$1" "$2" >&2
  exit 1
}

# Carries out a command, which is expected to print the first word here.
step() {
  expected=$1
  shift
  show_command "$@"
  printed=$("$here/braid" "$@")
  status=$?
  printf '%s\n' "$printed"
  compare "$status" "$printed" "$expected"
}

# Waits until the server has printed a line that begins so, no longer than it runs, and 30 seconds at most.
await_line() {
  tries=0
  until grep -q "^$1" served; do
    kill -0 "$server" 2>/dev/null || return
    test "$tries" -lt 300 || return
    tries=$((tries + 1))
    sleep 0.1
  done
}

# Starts the server at a port, for the eight connections of the syncs below.
start_server() {
  address=127.0.0.1:$1
  : >served
  "$here/braid" serve "$address" --workers 8 --take 8 >served &
  server=$!
  await_line .
}

port=9000
start_server "$port"
while grep -q '^fault: PortFault$' served && test "$port" -lt 9099; do
  wait "$server"
  port=$((port + 1))
  start_server "$port"
done
show_command serve "$address" --workers 8 --take 8
cat served
compare 0 "$(cat served)" "serving: $address"

step 'agent: ann' new ann.state ann "$address" /notes
step 'wrote: "ann-1"' set ann.state hello
step 'synced: confirmed 1 unsent 0' sync ann.state

step 'agent: bob' new bob.state bob "$address" /notes
step 'synced: confirmed 1 unsent 0' sync bob.state

# Both edit, and neither has seen what the other wrote.
step 'wrote: "ann-2"' edit ann.state 5 5 ', Bob'
step 'wrote: "bob-1"' edit bob.state 0 0 'Oh, '
step 'synced: confirmed 2 unsent 0' sync ann.state
step 'synced: confirmed 3 unsent 0' sync bob.state
step 'synced: confirmed 3 unsent 0' sync ann.state

shown='path: /notes
frontier: "ann-2", "bob-1"
confirmed: 3
unsent: 0
length: 14
digest: bc2ca253816a4176afd3faa9039646fecf359223cee00ac213b4ced5d1f14e9d
text:
Oh, hello, Bob'
step "agent: ann
$shown" show ann.state
step "agent: bob
$shown" show bob.state

# The server ends once its connections have.
await_line sessions:
wait "$server"
status=$?
server=
echo 'The server, at its end:'
cat served
compare "$status" "$(cat served)" "serving: $address
versions: 3
sessions: 8"
