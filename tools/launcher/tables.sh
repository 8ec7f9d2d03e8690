# shellcheck shell=bash
# The commands and the options of h263rps. The help, the completions, the manual, what is said of wrong words and the
# names of files are made of these two tables. A test compares them with the program's own.

# A row for each command: its name, its words in their order, and what it does.
# shellcheck disable=SC2034
COMMANDS=(
    'call|IN OUT|both ends: IN is sent, and OUT is what the receiver shows'
    'send|IN LOG WIRE|the sender alone: LOG says what happens, packets go to WIRE'
    'recv|LOG OUT WIRE|the receiver alone: LOG says what comes, messages go to WIRE'
    'demo|SEED FRAMES|a call on a made video of 1 to 10,000 frames: its counts alone'
    'rate|LOG|what a line must carry for the packets of LOG'
    'audit|LOG|whether the stream of LOG keeps the rules that a receiver relies on'
    "group|IN OUT|one sender and up to three receivers: OUT is what the first one shows"
    "duplex|IN1 IN2 OUT1 OUT2|two parties: each is sent the other's video, and OUT1 shows IN1"
)

# A row for each option: its name, its value and what this may be (a switch has none), its default, what it means, the
# commands that take it, and those that need it.
# shellcheck disable=SC2034
OPTIONS=(
    'quant|N|1 to 31|8|the quantiser|call send demo duplex group|'
    'keep|N|1 to 64|64|coefficients of a block|call send demo duplex group|'
    'radius|N|0 to 15|7|of the search, in samples|call send demo duplex group|'
    'limit|N|1200 to 9000|1400|bytes of a packet|call send demo duplex group|'
    'slots|N|2 to 64|16|pictures that each end keeps|call send recv demo audit duplex group|'
    'lead|N|0 to slots less 2|3|pictures before their turn|call send recv demo audit duplex group|'
    "messages|N|1 or 2|1|version of the receiver's messages|call recv demo duplex group|"
    'clock|C|standard or custom|standard|numbers of 8 or 10 bits|call send recv demo audit duplex group|'
    'format|F|sub-qcif, qcif or cif|qcif||recv demo audit|'
    'join||||packets that follow on, or carry several slices, are joined|recv|'
    'trace|FILE||every packet arrives|what the network does|call duplex group|duplex group'
    'out2|FILE||none|what the second receiver shows|group|'
    'out3|FILE||none|what the third one shows, after a second one|group|'
    'target|N|1 to 999999|none|bytes a picture|send rate|rate'
    'fit|N|1 to 999999|none|the same, which pictures fit by their sizes|send|'
    'bucket|N|0 to 999999||bytes that may wait|rate|rate'
)

# command_row NAME: sets the places of the command and what it does, where there is one.
command_row() {
    local row
    for row in "${COMMANDS[@]}"; do
        [ "${row%%|*}" = "$1" ] || continue
        IFS='|' read -r command places does <<< "$row"
        return 0
    done
    return 1
}

# option_row NAME: the same of an option.
option_row() {
    local row
    for row in "${OPTIONS[@]}"; do
        [ "${row%%|*}" = "$1" ] || continue
        IFS='|' read -r option value range default means takers needers <<< "$row"
        return 0
    done
    return 1
}

# The names of the commands, and those of the options that a command takes, a line each.
command_names() { printf '%s\n' "${COMMANDS[@]%%|*}"; }
option_names() {
    local row
    for row in "${OPTIONS[@]}"; do
        IFS='|' read -r option value range default means takers needers <<< "$row"
        [[ " $takers " != *" $1 "* ]] || echo "$option"
    done
}
