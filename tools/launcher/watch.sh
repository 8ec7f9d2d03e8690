# shellcheck shell=bash disable=SC2154
# How far long work is, on a terminal.

# watch_work PID: from its third second on, a line a second on the standard error, where that is a terminal and the
# report goes elsewhere.
watch_work() {
    watcher=''
    [ -z "$is_quiet" ] && [ -t 2 ] && [ ! -t 1 ] && [ -z "$fault" ] && [ "$command" != demo ] || return 0
    follow "$1" &
    watcher=$!
}

# watch_seconds WORDS: how long something takes, likewise.
watch_seconds() {
    watcher=''
    [ -z "$is_quiet" ] && [ -t 2 ] || return 0
    count_seconds "$1" &
    watcher=$!
}

count_seconds() {
    local began=$SECONDS
    trap 'exit 0' TERM
    # Whatever became of the launcher, this ends with it.
    while sleep 1 && [ -d "/proc/$$" ]; do
        printf '\r\033[K%s' "h263rps: $1 $((SECONDS - began)) s" >&2 || return
    done
}

end_watch() {
    [ -n "$watcher" ] || return 0
    kill "$watcher" 2>/dev/null
    wait "$watcher" 2>/dev/null
    printf '\r\033[K' >&2
}

follow() {
    local began=$SECONDS share
    trap 'exit 0' TERM
    sleep 2
    while [ -d "/proc/$1" ] && [ -d "/proc/$$" ]; do
        share=$(share_read "$1")
        printf '\r\033[K%s' "h263rps: $(counts_of "$1")$(time_left "$share" $((SECONDS - began)))" >&2
        sleep 1
    done
}

# share_read PID: how many thousandths of its input the program has read, where that is a file.
share_read() {
    local file input at size
    input=$(file_of LOG || file_of IN || file_of IN1)
    [ "$command" != send ] || input=$(file_of IN)
    [ -f "$input" ] || return 0
    size=$(stat -L -c %s -- "$input")
    for file in "/proc/$1/fd/"*; do
        [ "$file" -ef "$input" ] || continue
        at=$(sed -n 's/^pos:[[:space:]]*//p' "/proc/$1/fdinfo/${file##*/}" 2>/dev/null)
        [ "${size:-0}" = 0 ] || echo $((1000 * ${at:-0} / size))
        return
    done
}

# time_left SHARE SECONDS: how far that is, and how long the rest takes at this pace.
time_left() {
    [ -n "$1" ] && [ "$1" -gt 0 ] || return 0
    printf ' %s %%, %s s left' $(($1 / 10)) $(($2 * (1000 - $1) / $1))
}

# counts_of PID: pictures and their marks, by the report where that is a file, else by what OUT has by now.
counts_of() {
    local out marks=''
    out=$(file_of OUT || file_of OUT1)
    if [ -f "/proc/$1/fd/1" ]; then
        marks=$(grep -aoE '\b(exact|patched|held)\b' "/proc/$1/fd/1" | sort | uniq -c)
        [ -n "$marks" ] || marks=$(grep -acE '^([ab] )?[0-9]+ ' "/proc/$1/fd/1")
    elif [ -f "$out" ]; then
        marks=$(grep -aoE '^FRAME X(EXACT|PATCHED|HELD)' "$out" | sort | uniq -c)
        marks=${marks//FRAME X/} && marks=${marks,,}
    fi
    # shellcheck disable=SC2086
    set -- $marks
    case $# in
        0) printf '%s works:' "$command" ;;
        1) printf '%s pictures,' "$1" ;;
        *) tell_marks "$@" ;;
    esac
}

# tell_marks NUMBER MARK ..: how many pictures there are, and how many have each mark.
tell_marks() {
    local count=0 told=''
    while [ $# -gt 1 ]; do
        count=$((count + $1)) told="$told $2 $1"
        shift 2
    done
    printf '%s pictures%s,' "$count" "$told"
}
