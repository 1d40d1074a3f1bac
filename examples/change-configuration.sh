#!/bin/sh
# Gives a server on air another configuration. The server ends and starts again; device times go on where they were, by the clock
# of the machine, and gains and switches are as before. A playlist goes on with its next file.
#
#     change-configuration.sh ADDRESS CONFIGURATION SERVER [PLAYLIST LIST LOG [DEVICE]]
#
# SERVER is the process of the server. PLAYLIST is that of `audiofile-playlist < LIST > LOG`. Run this in the folder of the server:
# it prints the numbers of the new processes. A configuration with a fault ends nothing. If a program that the new one names cannot
# be started, no server runs: start it with the old one. Needed: GNU date, for milliseconds.
set -eu
fail() { echo "change-configuration.sh: $1" >&2; exit 1; }
[ $# -ge 3 ] || fail 'ADDRESS, CONFIGURATION and SERVER are needed'
address=$1 configuration=$2 server=$3 playlist=${4:-} list=${5:-} log=${6:-} device=${7:-0}
before=$(mktemp)
trap 'rm -f "$before"' EXIT
# whether a process has not ended; one that nobody has waited for yet is in state Z
runs() { grep -qs ') [^ZX] ' "/proc/$1/stat"; }

for process in "$server" $playlist; do runs "$process" || fail "there is no process $process"; done
moment=$(date +%s%3N)
af list "$address" > "$before"
# the address is taken, so a server with a good configuration ends with status 8
said=$(afd serve "$address" 1 < "$configuration" 2>&1) || [ $? = 8 ] || fail "$said"
for process in $playlist "$server"; do
    kill "$process"
    while runs "$process"; do sleep 0.02; done
done

# a device of the same number and rate starts at the time that it would have
awk -v passed=$(($(date +%s%3N) - moment)) '
    NR == FNR { rate[NR - 1] = $3; time[NR - 1] = $5; next }
    $1 == "device" && $3 == rate[count + 0] { $4 = sprintf("%.0f", (time[count + 0] + int(passed * $3 / 1000)) % 4294967296) }
    $1 == "device" { count++ }
    { print }' "$before" "$configuration" | afd serve "$address" forever > /dev/null &
server=$!
until now=$(af list "$address" 2> /dev/null); do
    runs "$server" || fail 'the server does not start'
    sleep 0.02
done
head -n "$(echo "$now" | wc -l)" "$before" | while read -r number _ _ _ _ _ input input_gain _ output output_gain _; do
    af aset "$address" --device="$number" --input="$input" --input-gain="$input_gain" --output="$output" --output-gain="$output_gain"
done > /dev/null
if [ -n "$playlist" ]; then
    # the log has a line for each file that was begun
    tail -n "+$(($(wc -l < "$log") + 1))" "$list" | audiofile-playlist --server="$address" --device="$device" >> "$log" &
    playlist=$!
fi
echo "$server" $playlist
