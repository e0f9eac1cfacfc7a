#!/usr/bin/env bash
# Builds the program, and runs keeper, store, Ada and Ben: run.sh FOLDER PAUSE. Ada pauses for so many milliseconds
# while she holds the lease. FOLDER then has the spans of each process. It needs Debian's packages golang-go and
# golang-opentelemetry-otel-dev.
set -euo pipefail
here=$(cd "$(dirname "$0")" && pwd)
folder=$1
pause=$2
mkdir -p "$folder"
made=$(mktemp -d)
trap 'kill $(jobs -p) 2>/dev/null || true; rm -rf "$made"' EXIT
(cd "$here" && GO111MODULE=off GOFLAGS='' GOPATH=/usr/share/gocode GOCACHE="${GOCACHE:-$made/cache}" \
    go build -o "$made/lease" .)
keeper=127.0.0.1:${KEEPER_PORT:-18471}
store=127.0.0.1:${STORE_PORT:-18472}
answers() {
    until (exec 3<>"/dev/tcp/${1/:/\/}") 2>/dev/null; do sleep 0.05; done
}
"$made/lease" keeper "$folder" "$keeper" "$store" &
servers=$!
"$made/lease" store "$folder" "$keeper" "$store" &
servers="$servers $!"
answers "$keeper"
answers "$store"
"$made/lease" ada "$folder" "$keeper" "$store" "$pause" &
ada=$!
"$made/lease" ben "$folder" "$keeper" "$store" 0
wait "$ada"
# shellcheck disable=SC2086
kill $servers
# shellcheck disable=SC2086
wait $servers
