# shellcheck shell=bash disable=SC2154
# What can be seen of the files that the words name, when the program has ended: read_words has read the words, and
# `words` holds them.

# file_at PLACE: the file that this word names.
file_at() {
    local word=${words[$1]}
    [ "${kinds[$1]}" != TRACE= ] || word=${word#--trace=}
    printf '%s' "$word"
}

# The same, to be read; an empty name is called so by what follows.
shown_at() {
    local name
    name=$(file_at "$1")
    [ -z "$name" ] || shown "$name"
}

# file_of KIND: the file of this place of the command's row; TRACE is in its own word or in the option's.
file_of() {
    local at
    for at in "${!kinds[@]}"; do
        case ${kinds[at]} in "$1" | "$1=") file_at "$at" && return ;; esac
    done
    return 1
}

# Where a file is refused its reading.
input_fault() {
    if [ -z "$1" ]; then
        echo "an empty name"
    elif [ ! -e "$1" ]; then
        echo ": there is no such file"
    elif [ -d "$1" ]; then
        echo ": it is a folder"
    elif [ ! -r "$1" ]; then
        echo ": it may not be read"
    fi
}

# is_report FILE REPORT: whether a file is the standard output by name, which a terminal alone may be twice. Within a
# substitution that name has another one.
is_report() { case $1 in /dev/stdout | /dev/fd/1 | /proc/self/fd/1) [ ! -c "$2" ] ;; *) false ;; esac; }

# output_fault PLACE REPORT: the same of an output; REPORT is the file of the standard output.
output_fault() {
    local file folder=. place
    file=$(file_at "$1")
    case $file in */*) folder=${file%/*}/ ;; esac
    place=$folder
    [ ! -e "$file" ] || place=$file
    if [ -z "$file" ]; then
        echo "an empty name"
    elif [ "$file" = - ] || is_report "$file" "$2"; then
        echo ": the report goes to the standard output; 3>FILE and /dev/fd/3 would do"
    elif [ -d "$file" ]; then
        echo ": it is a folder"
    elif [ ! -d "$folder" ]; then
        echo ": there is no such folder"
    elif [ ! -w "$place" ]; then
        echo ": it may not be written"
    elif [ ! -e "$file" ]; then
        :
    elif [ -c "$file" ]; then
        room_fault "$file"
    elif is_among inputs "$file" "$1"; then
        echo ": the command reads this file"
    elif is_among outputs "$file" "$1"; then
        echo ": another output is this file"
    elif [ "$file" -ef "$2" ]; then
        echo ": the report goes to this file"
    else
        room_fault "$file"
    fi
}

# Why a file that can be written takes no more.
room_fault() {
    local most left
    most=$(ulimit -f)
    left=$(df --output=avail -- "$1" 2>/dev/null | tail -n 1)
    if [ "$1" -ef /dev/full ]; then
        echo ": no device has room there"
    elif [ "$most" != unlimited ] && [ -f "$1" ] && [ "$(stat -c %s -- "$1")" -ge $((most * 1024)) ]; then
        echo ": it met the limit of a file's size (ulimit -f $most)"
    elif [ -f "$1" ] && [ "${left:-1}" -eq 0 ]; then
        echo ": its device is full"
    fi
}

# is_among WHICH FILE PLACE: whether a file is also another word, of the inputs or of the outputs.
is_among() {
    local at
    for at in "${!kinds[@]}"; do
        case $1:${kinds[at]} in
            inputs:IN* | inputs:LOG | inputs:TRACE* | outputs:OUT* | outputs:WIRE)
                [ "$at" = "$3" ] || [ ! "$2" -ef "$(file_at "$at")" ] || return 0
                ;;
        esac
    done
    return 1
}

# name_files WHICH REPORT: a line for each file among the words, with what can be seen of it: inputs, outputs or all.
name_files() {
    local at
    for at in "${!kinds[@]}"; do
        case $1:${kinds[at]} in
            inputs:IN* | inputs:LOG | inputs:TRACE* | all:IN* | all:LOG | all:TRACE*)
                say "  $(shown_at "$at")$(input_fault "$(file_at "$at")")"
                ;;
            outputs:OUT* | outputs:WIRE | all:OUT* | all:WIRE)
                say "  $(shown_at "$at")$(output_fault "$at" "$2")"
                ;;
        esac
    done
}
