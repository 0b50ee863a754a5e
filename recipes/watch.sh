#!/usr/bin/env bash
# Keeps CSS up to date while you work, with `sassw` and `inotifywait` (the package inotify-tools) alone: each ENTRY of the folder SRC becomes
# a file of OUT. A burst of events is one scan, a file is put in place whole or not at all and only where it is another one, the last good
# CSS stays on a fault, and the end of a `poll` is told. OUT may stand in SRC: what is written there starts nothing.
# Usage: watch.sh SRC OUT ENTRY..     for example: watch.sh src css main.scss pages/home.scss
set -u
QUIET_SECONDS=0.1
MOST_SECONDS=2

if [ $# -lt 3 ]; then
    echo "usage: $0 SRC OUT ENTRY.." >&2
    exit 7
fi
src=${1%/} out=${2%/}
shift 2
entries=("$@")
room=$(mktemp -d) || exit 2
pids=() to_poll=() from_poll=() faulty=() watcher=

end() {
    kill "${pids[@]}" $watcher 2> /dev/null
    rm -rf "$room"
}
trap end EXIT
trap 'exit 130' INT
trap 'exit 143' TERM
# Writing to a poll that ended is a failed write, which is told, and no end of this script.
trap '' PIPE

# The file that an entry becomes.
css_of() {
    echo "$out/${1%.*}.css"
}

# Starts the poll of the entry with this index, between two named pipes.
start() {
    mkfifo "$room/to$1" "$room/from$1" || exit 2
    sassw poll "$src" "${entries[$1]}" < "$room/to$1" > "$room/from$1" &
    pids[$1]=$!
    local to from
    exec {to}> "$room/to$1" {from}< "$room/from$1"
    to_poll[$1]=$to from_poll[$1]=$from
}

# Tells that a poll ended, and ends with its status.
ended() {
    wait "${pids[$1]}"
    local status=$? why
    case $status in
        6) why="no memory" ;;
        8) why="the folder $src isn't there, or something in it can't be read" ;;
        9) why="1,000,000 scans were answered: start again" ;;
        126 | 127) why="sassw can't be run" ;;
        *) why="docs/PROTOCOL.md has the statuses" ;;
    esac
    echo "the poll of ${entries[$1]} ended with status $status: $why" >&2
    exit "$status"
}

# Puts the next N bytes of the answers into the place of the entry's CSS, unless they are what stands there.
put_css() {
    local css
    css=$(css_of "${entries[$1]}")
    mkdir -p "$(dirname "$css")" && head -c "$2" <&"${from_poll[$1]}" > "$css.new" || exit 2
    if cmp -s "$css.new" "$css"; then
        rm "$css.new"
    else
        mv "$css.new" "$css"
        echo "$css $2 bytes"
    fi
}

# Shows a fault, of which CODE PATH L:C L:C are given, at a place that editors find, with its line.
show_fault() {
    echo "$src/$2:$3: fault $1"
    if [ -f "$src/$2" ]; then
        sed -n "${3%:*}p" "$src/$2"
    fi
}

# Asks the poll of the entry with this index to read the folder again, and carries out what it answers.
scan() {
    local word rest
    { echo scan >&"${to_poll[$1]}"; } 2> /dev/null || ended "$1"
    while IFS=' ' read -r word rest <&"${from_poll[$1]}"; do
        case $word in
            ran) continue ;;
            # The text of a message is on standard error already.
            warn | debug | fatal) head -c "${rest##* }" <&"${from_poll[$1]}" > /dev/null && read -r _ <&"${from_poll[$1]}" && continue ;;
            css)
                [ -z "${faulty[$1]:-}" ] || echo "${entries[$1]} fixed"
                faulty[$1]=
                put_css "$1" "$rest"
                read -r _ <&"${from_poll[$1]}"
                ;;
            error)
                faulty[$1]=yes
                # shellcheck disable=SC2086  # four words
                show_fault $rest
                ;;
            memory) echo "no memory for ${entries[$1]}" ;;
        esac
        return
    done
    ended "$1"
}

scan_all() {
    local index
    for index in "${!entries[@]}"; do
        scan "$index"
    done
}

# Whether an event, of which its names and its path are given with a space between, may change what a sheet means.
matters() {
    local names=${1%% *} path=${1#* } entry
    case $names in *ISDIR* | *SELF*) return 0 ;; esac
    case $path in *.scss | *.sass | *.css) ;; *) return 1 ;; esac
    for entry in "${entries[@]}"; do
        [ "$path" -ef "$(css_of "$entry")" ] && return 1
    done
    return 0
}

# Reads the events behind this one until none comes for a while. Whether one of them matters.
burst() {
    local event=$1 found=1 latest=$((SECONDS + MOST_SECONDS))
    while :; do
        [ $found = 0 ] || ! matters "$event" || found=0
        [ $SECONDS -lt $latest ] && IFS= read -r -t $QUIET_SECONDS event <&"$events" || return $found
    done
}

# Waits a second for an event and scans where it matters. Then it looks whether all that was started still runs.
turn() {
    local event index
    if IFS= read -r -t 1 event <&"$events"; then
        burst "$event" && scan_all
        return
    fi
    for index in "${!pids[@]}"; do
        kill -0 "${pids[$index]}" 2> /dev/null || ended "$index"
    done
    kill -0 $watcher 2> /dev/null || { echo "inotifywait ended" >&2 && exit 2; }
}

mkfifo "$room/events" "$room/said" || exit 2
inotifywait -mr --format '%e %w%f' -e create,close_write,move,delete,move_self,delete_self "$src" > "$room/events" 2> "$room/said" &
watcher=$!
exec {events}< "$room/events" {said}< "$room/said"
# It watches before the first scan, so that no edit is missed in between.
while IFS= read -r line <&"$said"; do
    case $line in
        *"Watches established"*) break ;;
        "Setting up"*) ;;
        *) echo "$line" >&2 ;;
    esac
done
for index in "${!entries[@]}"; do
    start "$index"
done
scan_all
while :; do
    turn
done
