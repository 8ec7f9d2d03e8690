# shellcheck shell=bash disable=SC2154
# What the program's line and its status don't say: which word or file is meant, what is wanted, and what helps.

FORMATS="128x96, 176x144 or 352x288"
MOST_FRAMES=1048576
CROP="fps=30000/1001,scale=352:288:force_original_aspect_ratio=increase,crop=352:288,format=yuv420p"

# explain STATUS REPORT: REPORT is the file of the standard output, or nothing where that was closed.
explain() {
    case $1 in
        2)
            [ -z "$fault" ] || say "$fault"
            if [ ${#kinds[@]} = 0 ]; then
                say "./h263rps --help lists the commands and their options"
            else
                say "./h263rps $command --help lists its words and its options"
            fi
            ;;
        3)
            say "a read failed (status 3), of one of these; the outputs have what came before it:"
            name_files inputs "$2"
            ;;
        4) explain_write "$2" ;;
        5) explain_video "$(file_of IN || file_of IN1)" "$2" ;;
        6) explain_trace "$(file_of TRACE)" "$2" ;;
        7) explain_log "$(file_of LOG)" ;;
        8)
            say "one of these could not be opened (status 8), and an output may be empty now:"
            name_files all "$2"
            ;;
        9) explain_video "$(file_of IN2)" "$2" ;;
    esac
}

# Of the report or of an output, where it can be seen which of them takes no more.
explain_write() {
    local files why
    files=$(name_files outputs "$1" 2>&1)
    if [ -z "$1" ]; then
        why=": the standard output is closed"
    else
        why=$(room_fault "$1")
    fi
    if [ -n "$why" ] && [[ $files != *": "*": "* ]]; then
        say "a write failed (status 4), of the report$why"
    elif [ -z "$files" ]; then
        say "a write failed (status 4), of the report"
    else
        say "a write failed (status 4), of the report$why or of one of these:"
        printf '%s\n' "$files" >&2
    fi
}

# The first bytes of a file that can be read again, without any zero.
head_of() { [ ! -f "$1" ] || head -c "$2" -- "$1" | tr -d '\0'; }

# What a file is by its first bytes, if it is no log, no trace and no video of the kind that is wanted.
kind_of_file() {
    local first
    first=$(head -c 4 -- "$1" | od -An -tx1 | tr -d ' \n')
    case $first in
        '') echo "it is empty" ;;
        59555634) echo "this is a video" ;;
        0a0d0d0a | d4c3b2a1 | a1b2c3d4 | 4d3cb2a1 | a1b23c4d)
            echo "this is a capture; tools/log_of_pcap makes a log of it"
            ;;
        530000* | 500000* | 4b* | 420003* | 420005*) echo "this is a log" ;;
        530a* | 44203* | 61205* | 61204*) echo "this is a trace, which call or duplex --trace takes" ;;
    esac
}

# seen_again FILE WANTED: whether a file that was refused can be looked at. If not, what is wanted is said.
seen_again() {
    local name
    [ ! -f "$1" ] || return 0
    [ -n "$1" ] || return 1
    name=$(shown "$1")
    [ "$1" != /dev/stdin ] || name='the standard input'
    if [ "$1" -ef /dev/null ]; then
        say "$name is empty: $2 is wanted"
    else
        say "$name can't be read a second time: $2 is wanted, and the report has the fault and its place"
    fi
    return 1
}

# is_told REPORT CAUSE: whether the report, where it is a file, ends with this cause; where it is none, nobody knows.
is_told() { [ ! -f "$1" ] || tail -n 1 -- "$1" | grep -aq -- " refused: $2 at "; }

# tag_of LETTER HEAD: the value of this letter's last tag.
tag_of() {
    local word found=''
    for word in $2; do [[ $word != "$1"* ]] || found=${word#"$1"}; done
    [[ $found =~ ^[A-Za-z0-9:?=_-]*$ ]] && echo "$found"
}

explain_video() {
    local head why first=''
    seen_again "$1" "a Y4M of $FORMATS" || return 0
    head=$(head_of "$1" 256 | head -n 1)
    why=$(video_fault "$head" "$1" "$2")
    say "$(shown "$1") $why"
    case $why in
        *'a good head'* | *capture* | *'a log'* | *trace* | *empty*) return ;;
        *interlaced*) first=yadif, ;;
    esac
    say "  ffmpeg -i $(quoted "$1") -vf $first$CROP -f yuv4mpegpipe new.y4m"
}

is_format() { [[ " ${FORMATS//[,o]/ } " == *" $1 "* ]]; }

# frames_in FILE: how many frames a video has whose head is good, and `cut` where the last one isn't whole.
frames_in() {
    local head width height frame left cut=''
    head=$(head_of "$1" 256 | head -n 1)
    width=$(tag_of W "${head#* }") height=$(tag_of H "${head#* }")
    is_format "${width}x$height" || return 0
    # Six bytes begin a frame, unless it has tags of its own.
    frame=$((width * height * 3 / 2 + 6)) left=$(($(stat -L -c %s -- "$1") - ${#head} - 1))
    [ $((left % frame)) = 0 ] || cut=' cut'
    if [ -n "$cut" ] && LC_ALL=C grep -aq '^FRAME .' -- "$1"; then
        LC_ALL=C grep -ao FRAME -- "$1" | wc -l
    else
        echo "$((left / frame))$cut"
    fi
}

# frame_fault FILE REPORT: the same of a video whose head is good. Frames that fit into a file can be counted.
frame_fault() {
    local count cut
    read -r count cut <<< "$(frames_in "$1")"
    if [ "$count" -gt "$MOST_FRAMES" ] && { [ ! -f "$2" ] || is_told "$2" 'too many frames'; }; then
        echo "has a good head, and more than 1,048,576 frames"
    elif [ -n "$cut" ]; then
        echo "has a good head, but frame $count (from 0 on) is cut short"
    else
        echo "has a good head, but a frame is cut short, or doesn't begin with FRAME: the report has its place"
    fi
}

# video_fault HEAD FILE REPORT: what is wrong with a video by its head, if that is at fault.
video_fault() {
    local size colour interlaced kind
    size=$(tag_of W "${1#* }")x$(tag_of H "${1#* }") colour=$(tag_of C "${1#* }") interlaced=$(tag_of I "${1#* }")
    kind=$(kind_of_file "$2")
    if [ "${1%% *}" != YUV4MPEG2 ]; then
        echo "is no Y4M${kind:+: $kind}; a Y4M of $FORMATS is wanted"
    elif ! is_format "$size"; then
        echo "is $size, and $FORMATS is wanted"
    elif [[ ! $interlaced =~ ^[p?]?$ ]]; then
        echo "is interlaced (I$interlaced), and whole frames are wanted"
    elif [[ -n $colour && ! $colour =~ ^420(jpeg|mpeg2|paldv)?$ ]]; then
        echo "has the samples C$colour, and 4:2:0 of 8 bits is wanted"
    else
        frame_fault "$2" "$3"
    fi
}

# long_trace FILE REPORT: says so where a trace captures more frames than a video has.
long_trace() {
    local one letter video sent count cut
    is_told "$2" 'no frame' || return 1
    for one in IN: IN1:a IN2:b; do
        video=$(file_of "${one%:*}")
        [ -f "$video" ] || continue
        letter=${one#*:}
        sent=$(grep -cxa "${letter:+$letter }S" -- "$1")
        read -r count cut <<< "$(frames_in "$video")"
        [ "$sent" -gt "${count:-$sent}" ] || continue
        say "$(shown "$1") captures $sent pictures${letter:+ of $letter}, and $(shown "$video") has $count"
        say "  tools/trace_of_loss --pictures $count makes one that fits"
        return
    done
    return 1
}

explain_trace() {
    local line name grammar='S|P|B [0-9]{1,7}|D [0-9]{1,7}\.([0-9]{1,7}|\*)'
    local other='[ab] (S|P|D [0-9]{1,7}\.([0-9]{1,7}|\*))'
    seen_again "$1" "a trace" || return 0
    name=$(shown "$1")
    [ "$command" = call ] || { line=$grammar grammar=$other other=$line; }
    line=$(grep -anvxE -m 1 "($grammar)?" -- "$1" | tr -d '\0' | cut -c 1-60)
    if [ -z "$line" ] && long_trace "$1" "$2"; then
        :
    elif [ -z "$line" ]; then
        say "$name: each line is an event; one comes before what it is about, or much too late: the report names it"
        say "  docs/FORMATS.md, \"Trace\", says what is refused"
    elif [[ $line == *$'\r' ]]; then
        say "$name: its lines end with CR LF, and LF alone is wanted: tr -d '\\r' < $(quoted "$1") > unix.trace"
    elif [[ ${line#*:} =~ ^($other)$ ]]; then
        other="one party: call"
        [ "$command" = duplex ] || other="two parties: duplex"
        say "$name: this is a trace of $other"
    else
        other=$(kind_of_file "$1")
        say "$name, line ${line%%:*}: no event is $(shown "${line#*:}")${other:+; $other}"
        [ "$command" = duplex ] || say "  an event is S, D n.i, D n.*, B k or P"
        [ "$command" = call ] || say "  an event is a S, a D n.i, a D n.* or a P, or the same with b"
    fi
}

explain_log() {
    local letter kind told
    case $command in
        send) told="a sender's log has S and B" ;;
        recv) told="a receiver's log has K and P" ;;
        rate) told="a log of packets has K, and P" ;;
        *) told="the log of an audit has K and B, as tools/audit_log makes it" ;;
    esac
    seen_again "$1" "a log ($told)" || return 0
    letter=$(head_of "$1" 1) kind=$(kind_of_file "$1")
    case $command$letter:$kind in
        send[KP]:*log) kind="this is a receiver's log, or packets: recv, rate" ;;
        recv[SB]:*log | rate[SB]:*log) kind="this is a sender's log, or messages: send" ;;
        audit[SP]:*log) kind="this is the log of one end" ;;
        *:*log | *:) kind="an entry is of another kind, or is cut at the end; the report has the place" ;;
    esac
    say "$(shown "$1"): $kind; $told"
}

# What a video loses on its way from IN to OUT, by the head of IN.
tell_changes() {
    local file out head range shape
    [ -f "$1" ] || return 0
    # Packets have times, and nothing else of a head.
    tell_rate "$1" "$2"
    [ "$command" != send ] || return 0
    head=$(head_of "$1" 256 | head -n 1) file=$(shown "$1") out=$(shown "$2")
    range=$(tag_of XCOLORRANGE= "$head") shape=$(tag_of A "$head")
    if [ "$range" = FULL ]; then
        say "$file has samples of full range, and $out says nothing of it: a player takes them for limited"
        say "  ffmpeg -i $(quoted "$1") -vf scale=out_range=tv -f yuv4mpegpipe new.y4m keeps their look"
    fi
    case $shape in
        '' | 0:0 | 1:1) ;;
        *) say "$file has samples that aren't square (A$shape), and $out doesn't say so" ;;
    esac
}

tell_rate() {
    local rate
    rate=$(tag_of F "$(head_of "$1" 256 | head -n 1)")
    case $rate in
        '' | 30000:1001 | 0:0) ;;
        *)
            say "$(shown "$1") has $rate frames a second, and $(shown "$2") says 30000:1001"
            say "  ffmpeg -i $(quoted "$1") -vf fps=30000/1001 -f yuv4mpegpipe new.y4m keeps its pace"
            ;;
    esac
}

# The same of each video of the command, when all went well.
tell_all_changes() {
    local one out
    for one in IN:OUT IN1:OUT1 IN2:OUT2 IN:WIRE; do
        out=$(file_of "${one#*:}") && tell_changes "$(file_of "${one%:*}")" "$out"
    done
    return 0
}
