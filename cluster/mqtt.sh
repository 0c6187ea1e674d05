#!/usr/bin/env bash
# One node of three, whose letters go to the others over an MQTT broker (mosquitto and its clients, in Debian's
# packages). A topic for each node, quality of service 1, and sessions that last: what comes for a node that is away
# waits at the broker. An access list lets nobody write letters but the nodes.
#
# Usage: cluster/mqtt.sh users FOLDER           makes users and the access list there
#        cluster/mqtt.sh broker FOLDER          the same where they aren't there, and runs a broker
#        cluster/mqtt.sh node K FOLDER [--new]  node K of three, over FOLDER/node-K.db
#        cluster/mqtt.sh supervise FOLDER PLAN [CUTS]   `upsched check` looks at the plan first
#
# FOLDER/passwords has the users' passwords in the clear, for the clients: copy to each host what it needs. HOST and
# PORT in the environment are the broker's (localhost, 1883).
set -euo pipefail
here=$(cd -- "$(dirname -- "${BASH_SOURCE[0]}")" && pwd)
. "$here/parts.sh"
wants_usage "$@"
role=$1
case $role in
users | broker)
    [ $# = 2 ] || refuses "$role takes FOLDER; --help says more"
    folder=$2
    ;;
node)
    [ $# = 3 ] || { [ $# = 4 ] && [ "$4" = --new ]; } || refuses 'node takes K FOLDER [--new]; --help says more'
    [[ $2 =~ ^[0-2]$ ]] || refuses "there is no node $2 of three"
    me=$2 folder=$3
    ;;
supervise)
    [ $# = 3 ] || [ $# = 4 ] || refuses 'supervise takes FOLDER PLAN [CUTS]; --help says more'
    folder=$2
    wants_cuts "${4:-0}"
    look_at "$3"
    ;;
*) refuses "'$role' is none of users, broker, node and supervise" ;;
esac
host=${HOST:-localhost} port=${PORT:-1883}
made=$(mktemp -d)
trap 'end_parts; rm -rf "$made"' EXIT
trap 'exit 1' HUP INT TERM

make_users() {
    local name password
    : >"$folder/users" && : >"$folder/access" && : >"$folder/passwords"
    chmod 600 "$folder"/{users,access,passwords}
    for name in node-0 node-1 node-2 supervisor; do
        password=$(od -An -N16 -tx1 /dev/urandom | tr -d ' \n')
        echo "$name $password" >>"$folder/passwords"
        mosquitto_passwd -b "$folder/users" "$name" "$password"
        printf 'user %s\ntopic write upsched/#\n' "$name" >>"$folder/access"
        case $name in
        node-*) printf 'topic read upsched/%s\n' "${name#node-}" ;;
        *) echo 'topic read upsched/replies' ;;
        esac >>"$folder/access"
    done
    cat >"$folder/broker.conf" <<END
listener $port $host
user $(id -un)
allow_anonymous false
password_file $folder/users
acl_file $folder/access
persistence true
persistence_location $folder/
max_queued_messages 100000
END
}

# of NAME: the words by which a client is this user.
of() {
    words=(-h "$host" -p "$port" -q 1 -u "$1" -P "$(sed -n "s/^$1 //p" "$folder/passwords")")
}

# publish TOPIC WORD..: what comes through the pipe of that name is published there, a line each.
publish() {
    mosquitto_pub "${@:2}" -t "upsched/$1" -l <>"$made/$1"
}

# sends TOPIC..: for each topic a pipe, whose lines are published there.
sends() {
    local topic
    for topic in "$@"; do
        mkfifo "$made/$topic"
        part bash -c 'publish "$@"' bash "$topic" "${words[@]}"
    done
}

# node K FILE [--new]: what it is told comes on standard input.
node() {
    "$here/../upsched" node "$1" --members 3 --store "${@:2}" | while IFS= read -r line; do
        [[ $line != letter* ]] || { read -r _ to digits <<<"$line" && echo "letter $digits" >"$made/$to"; }
        echo "$1 $line" >"$made/replies"
    done
}

# supervise PLAN [CUTS]: what the nodes reply comes on standard input.
supervise() {
    python3 "$here/supervisor.py" 3 "$@" | while read -r k line; do echo "$line" >"$made/$k"; done
}

# hears COUNT WORD..: the function and its words are the next COUNT, the others those of a client: what this one hears
# comes to the function.
hears() {
    mosquitto_sub "${@:$1+2}" | "${@:2:$1}"
}

export here made
export -f publish node supervise hears
case $role in
users | broker)
    mkdir -p "$folder"
    folder=$(cd -- "$folder" && pwd)
    [ -e "$folder/passwords" ] || make_users
    [ "$role" = users ] && exit
    part mosquitto -c "$folder/broker.conf"
    ;;
node)
    of "node-$me"
    sends 0 1 2 replies
    runs=(node "$me" "$folder/node-$me.db" "${@:4}")
    part bash -o pipefail -c 'hears "$@"' bash ${#runs[@]} "${runs[@]}" "${words[@]}" -i "node-$me" -c -t "upsched/$me"
    ;;
supervise)
    of supervisor
    sends 0 1 2
    runs=(supervise "${@:3}")
    part bash -o pipefail -c 'hears "$@"' bash ${#runs[@]} "${runs[@]}" "${words[@]}" -i supervisor -c -t upsched/replies
    ;;
esac
wait $!
