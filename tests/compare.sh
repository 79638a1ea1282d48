#!/usr/bin/env bash
# Compares a program with the reference over generated histories.
# usage: tests/compare.sh PROGRAM [COUNT]
set -euo pipefail

if [ $# -lt 1 ] || [ $# -gt 2 ]; then
    echo "usage: $0 PROGRAM [COUNT]" >&2
    exit 2
fi
program=$(realpath -- "$1")
count=${2:-600}
here=$(dirname -- "$(realpath -- "$0")")

# The kinds take turns; large sheets take the longest and come rarely.
kinds=(random damaged rings headon refusals yards)
large_every=25

build=$(mktemp -d)
trap 'rm -rf -- "$build"' EXIT
rustc --edition 2024 -O "$here/reference/main.rs" -o "$build/reference"

histories=0
replies=0

# Runs the program in a history's folder and checks its replies.
check_history() {
    local folder=$1 name=$2 status=0 said
    (cd "$folder" && "$program" <stdin >replies) || status=$?
    if [ "$status" -ne 0 ]; then
        echo "$name: the program ended with status $status; its folder is $folder"
        exit 1
    fi
    if ! said=$(cd "$folder" && "$build/reference" check replies <stdin); then
        echo "$said"
        echo "$name: not as the reference says; its folder is $folder"
        exit 1
    fi
    said=${said#ok: }
    replies=$((replies + ${said% replies}))
    histories=$((histories + 1))
}

generated_history() {
    local seed=$1 kind=$2 folder
    folder=$(mktemp -d)
    "$build/reference" generate "$seed" "$kind" "$folder"
    check_history "$folder" "seed $seed, kind $kind"
    rm -rf -- "$folder"
}

# Each reply has to come before the next line is sent.
reply_by_reply() {
    local folder worked=$here/data/worked line reply talker to from status=0
    folder=$(mktemp -d)
    cp -- "$worked/yard.hex" "$folder/"
    coproc TALK { cd "$folder" && exec "$program"; }
    talker=$TALK_PID
    exec {to}>&"${TALK[1]}" {from}<&"${TALK[0]}"
    eval "exec ${TALK[1]}>&- ${TALK[0]}<&-"
    trap '' PIPE
    while read -r line; do
        echo "$line" >&"$to" || true
        if ! read -r -t 10 reply <&"$from"; then
            echo "no reply to $line before the next line; the folder is $folder"
            kill "$talker" 2>/dev/null || true
            exit 1
        fi
        echo "$reply" >>"$folder/replies"
    done <"$worked/stdin"
    trap - PIPE
    exec {to}>&-
    wait "$talker" || status=$?
    exec {from}<&-
    if [ "$status" -ne 0 ] || ! cmp -- "$folder/replies" "$worked/stdout"; then
        echo "line by line: status $status, or not as expected; the folder is $folder"
        exit 1
    fi
    rm -rf -- "$folder"
}

for ((seed = 1; seed <= count; seed++)); do
    if ((seed % large_every == 0)); then
        generated_history "$seed" large
    else
        generated_history "$seed" "${kinds[seed % ${#kinds[@]}]}"
    fi
done
reply_by_reply
echo "compare: $histories histories, $replies replies, all as the reference says"
