# shellcheck shell=bash disable=SC2034,SC2154
# Reads words as the program does (docs/FORMATS.md, "Words"): what each of them is, and which one is at fault.

# read_words WORD..: sets `kinds`, what each word is: command, option, value, extra, a place of the command's row (IN,
# LOG, OUT, WIRE, IN1, ..), TRACE (the file after --trace) or TRACE= (one in its word). Sets `fault`, what is wrong with
# the first word that the program doesn't take, or nothing.
read_words() {
    local word waits='' is_plain='' dashed='' left=()
    declare -gA given=()
    kinds=() fault=''
    if ! command_row "${1-}"; then
        blame "$(no_command "${1-}")"
        return
    fi
    kinds=(command)
    shift
    read -r -a left <<< "$places"
    for word; do
        case $is_plain$waits:$word in
            -*:* | :[!-]* | : | :-) take_place "$word" ;;
            :--) kinds+=(option) is_plain=- ;;
            :--*) take_option "$word" ;;
            :-*) kinds+=(option) && blame "$(shown "$word") is no word of $command: an option begins with --" ;;
            *) take_value "$word" ;;
        esac
    done
    [ -z "$waits" ] || blame "--$waits needs a value$(allowed "$waits")"
    [ ${#left[@]} = 0 ] || blame "$command needs ${left[0]}: $command $places"
    check_needs
    check_lead
    [ -z "$fault" ] || [ -z "$dashed" ] || fault="$(shown "$dashed") begins with a dash that is no hyphen; $(shown "--$(undashed "$dashed")")?"
}

blame() { [ -n "$fault" ] || fault=$1; }

# A word for a command that may be typed again: as a shell would take it.
quoted() { printf '%q' "$1"; }

# A word to be read: as it stands, unless it is empty or the terminal would take a character of it for more than a
# letter.
shown() { if [[ -z $1 || $1 == *[![:print:]]* ]]; then quoted "$1"; else printf '%s' "$1"; fi; }

no_command() {
    local near word
    word=$(shown "$1")
    if [[ $1 == --* ]] && option_row "$(option_of "$1")"; then
        echo "no command $word: the command comes first, and then --$option"
        return
    fi
    case $1 in
        -v | -V) near=--version ;;
        -q) near=--quiet ;;
        *) near=$(nearest "$1" "${COMMANDS[@]%%|*}" --help --version --quiet --man --completion) ;;
    esac
    [ -n "$near" ] && echo "no command $word; $near?" && return
    local names=("${COMMANDS[@]%%|*}") others
    printf -v others '%s, ' "${names[@]::${#names[@]}-1}"
    echo "no command $word: ${others%, } or ${names[-1]}"
}

# A word without the dash that an editor made of a hyphen (in UTF-8: en dash, em dash and minus).
undashed() {
    local word=$1 dash
    for dash in $'\xe2\x80\x93' $'\xe2\x80\x94' $'\xe2\x88\x92'; do word=${word#"$dash"}; done
    printf '%s' "${word%%=*}"
}

# The name of the option of a word that begins with --.
option_of() {
    local name=${1#--}
    printf '%s' "${name%%=*}"
}

no_option() {
    local near names
    mapfile -t names < <(option_names "$command")
    if option_row "$1"; then
        echo "$command has no --$1; it takes ${names[*]/#/--}"
        return
    fi
    near=$(nearest "$1" "${names[@]}")
    echo "no option --$(shown "$1")${near:+; --$near?}"
}

take_place() {
    [ -n "$is_plain" ] || [ "$(undashed "$1")" = "${1%%=*}" ] || dashed=${dashed:-$1}
    if [ ${#left[@]} = 0 ]; then
        kinds+=(extra) && blame "$(shown "$1") is a word too many: $command $places"
        return
    fi
    kinds+=("${left[0]}")
    given[${left[0]}]=$1
    case ${left[0]} in
        SEED) [[ $1 =~ ^[0-9]{1,9}$ ]] || blame "SEED $(shown "$1"): a number of 1 to 9 digits" ;;
        FRAMES) is_between "$1" 1 10000 5 || blame "FRAMES $(shown "$1"): from 1 to 10000" ;;
    esac
    left=("${left[@]:1}")
}

take_option() {
    local name
    name=$(option_of "$1")
    if ! option_row "$name" || [[ " $takers " != *" $command "* ]]; then
        kinds+=(option) && blame "$(no_option "$name")"
    elif [ -z "$value" ]; then
        kinds+=(option)
        [[ $1 != *=* ]] || blame "--$name takes no value"
        give "$name" ''
    elif [[ $1 == *=* ]]; then
        if [ "$name" = trace ]; then kinds+=(TRACE=); else kinds+=(option); fi
        give "$name" "${1#*=}"
    else
        kinds+=(option) waits=$name
    fi
}

take_value() {
    [[ $1 != -?* ]] || blame "--$waits needs a value$(allowed "$waits"); $(shown "$1") would be one as --$waits=.."
    if [ "$waits" = trace ]; then kinds+=(TRACE); else kinds+=(value); fi
    give "$waits" "$1"
    waits=''
}

# give NAME VALUE: an option stands once, and its value is one that it may have.
give() {
    [ -z "${given[$1]+there}" ] || blame "--$1 stands twice"
    given[$1]=$2
    option_row "$1"
    [ -z "$range" ] || is_allowed "$2" || blame "--$1 $(shown "$2")$(allowed "$1")"
}

# Whether a value is in the range that option_row set.
is_allowed() {
    case $range in
        *' less 2') is_between "$1" 0 999999 6 ;;
        [0-9]*' to '[0-9]*) is_between "$1" "${range% to *}" "${range#* to }" 6 ;;
        [0-9]*' or '[0-9]*) is_between "$1" "${range% or *}" "${range#* or }" 6 ;;
        *) [[ $1 =~ ^[a-z-]+$ && " ${range//,/} " == *" $1 "* && $1 != or ]] ;;
    esac
}

# is_between TEXT LEAST MOST DIGITS: a number of so many digits at most, from the least to the most.
is_between() {
    [[ $1 =~ ^[0-9]+$ ]] && [ ${#1} -le "$4" ] && [ $((10#$1)) -ge "$2" ] && [ $((10#$1)) -le "$3" ]
}

# What an option may be, after a colon.
allowed() {
    option_row "$1"
    case $range in
        '') echo ": the name of a file" ;;
        *' to '*) echo ": from $range" ;;
        *) echo ": $range" ;;
    esac
}

check_needs() {
    local row
    for row in "${OPTIONS[@]}"; do
        IFS='|' read -r option value range default means takers needers <<< "$row"
        [[ " $needers " != *" $command "* ]] || [ -n "${given[$option]+there}" ] || blame "$command needs --$option"
    done
}

check_lead() {
    local slots=${given[slots]-16} lead=${given[lead]-3}
    [[ -n "${given[slots]+there}${given[lead]+there}" && $slots$lead =~ ^[0-9]+$ ]] || return 0
    [ $((10#$lead + 2)) -le $((10#$slots)) ] \
        || blame "--lead $lead: from 0 to $((10#$slots - 2)), --slots ($slots) less 2"
}

# nearest WORD NAME..: the name that is at most two letters away, if one is nearest, else the first one that begins with
# the same three letters. Small letters and large ones are the same.
nearest() {
    local word=${1,,} name best='' least=3 far
    shift
    [ ${#word} -le 20 ] || return 0
    for name; do
        far=$(distance "$word" "$name")
        [ "$far" -ge "$least" ] || { least=$far best=$name; }
    done
    for name; do
        [[ -n $best || $name == --* || ${#word} -lt 3 || $name != "${word:0:3}"* ]] || best=$name
    done
    echo "$best"
}

# How many letters have to be put in, left out or changed to make one word of another.
distance() {
    local one=$1 other=$2 i j cost before=() row=()
    for ((j = 0; j <= ${#other}; j++)); do row[j]=$j; done
    for ((i = 1; i <= ${#one}; i++)); do
        before=("${row[@]}")
        row=("$i")
        for ((j = 1; j <= ${#other}; j++)); do
            cost=1
            [ "${one:i-1:1}" != "${other:j-1:1}" ] || cost=0
            row[j]=$((before[j-1] + cost))
            [ $((before[j] + 1)) -ge "${row[j]}" ] || row[j]=$((before[j] + 1))
            [ $((row[j-1] + 1)) -ge "${row[j]}" ] || row[j]=$((row[j-1] + 1))
        done
    done
    echo "${row[${#other}]}"
}
