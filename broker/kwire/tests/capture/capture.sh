#!/bin/bash
# capture.sh FOLDER: writes captured.txt, vectors.txt and errors.txt anew into FOLDER. Run as root (for a packet socket) on Debian 12 with
# librdkafka-dev kcat python3-confluent-kafka python3-kafka golang-go golang-github-shopify-sarama-dev.
set -eu
here=$(cd "$(dirname "$0")" && pwd)
to=$(cd "$1" && pwd)
work=$(mktemp -d)
trap 'kill $(jobs -p) 2>/dev/null || true; rm -rf "$work"' EXIT
cd "$work"
cc -o mock "$here/mock.c" -lrdkafka
GO111MODULE=off GOPATH=/usr/share/gocode GOCACHE=${GOCACHE:-$work/cache} go build -o sarama "$here/sarama.go" 2>warnings || { cat warnings; exit 1; }

# client NAME COMMAND..: runs a client against a mock cluster of its own, and keeps its frames in NAME.frames.
client() {
    local name=$1
    shift
    mkfifo "$name.stdin"
    ./mock <"$name.stdin" >"$name.address" 2>"$name.mock" &
    exec 9>"$name.stdin"
    until [ -s "$name.address" ]; do sleep 0.1; done
    local address
    address=$(cat "$name.address")
    /usr/bin/python3 "$here/sniff.py" "${address##*:}" "$name.frames" >"$name.ready" &
    local sniffer=$!
    until [ -s "$name.ready" ]; do sleep 0.1; done
    timeout 60 "$@" "$address"
    sleep 0.5
    kill "$sniffer"
    exec 9>&-
}

cat >kcat.sh <<'END'
printf 'one\ntwo\n' | kcat -b "$1" -P -t pay -p 0 -X client.id=till
kcat -b "$1" -C -t pay -p 0 -o beginning -e -q -X client.id=till
kcat -b "$1" -Q -t pay:0:-1 -X client.id=till
END
client rdkafka /usr/bin/python3 "$here/rdkafka.py"
client kcat bash kcat.sh
client python /usr/bin/python3 "$here/python.py"
client sarama ./sarama
timeout 60 /usr/bin/python3 "$here/flexible.py" all.frames
grep -E '^(9 7|28 3) ' all.frames >flexible.frames
/usr/bin/python3 "$here/pick.py" {rdkafka,flexible,kcat,python,sarama}.frames >"$to/captured.txt"
/usr/bin/python3 "$here/vectors.py" "$to/vectors.txt"
/usr/bin/python3 "$here/errors.py" "$to/errors.txt"
