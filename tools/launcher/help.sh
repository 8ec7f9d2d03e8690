# shellcheck shell=bash disable=SC2154
# What is made of the tables: the help, that of one command, the completions of two shells, and the manual.

help() {
    local row
    echo "usage: ./h263rps COMMAND WORD.. [OPTION..]"
    echo
    for row in "${COMMANDS[@]}"; do
        IFS='|' read -r command places does <<< "$row"
        printf '  %-26s%s\n' "$command $places" "$does"
    done
    echo
    for row in "${OPTIONS[@]}"; do
        IFS='|' read -r option value range default means takers needers <<< "$row"
        printf '  %-14s%-61s%s\n' "--$option${value:+ $value}" "$(told_option)" "$(told_takers)"
    done
    cat <<'END'

An option is --name N or --name=N, anywhere after the command; - is the standard input.
./h263rps COMMAND --help has one command alone. Before the command --quiet leaves out what is
said on the standard error. --version, --man, --completion bash and --completion zsh stand alone.
docs/COMMANDS.md has an example of each command, and says what each status means.
END
}

# The range of the option whose row was read, what it means and its default.
told_option() {
    local told=${range:+$range${means:+: }}$means
    echo "$told${default:+ ($default)}"
}

# Who takes this option, and who needs it.
told_takers() {
    local name some=()
    for name in $takers; do
        [[ " $needers " == *" $name "* ]] || some+=("$name")
    done
    [ "${some[*]}" != 'call send recv demo audit duplex' ] || some=(all but rate)
    if [ -z "$needers" ]; then
        echo "${some[*]}"
    else
        echo "${some[*]}${some[0]:+; }$needers, which needs it"
    fi
}

# command_help NAME: its words, what it does, and its options alone.
command_help() {
    local name
    command_row "$1" || return 1
    echo "usage: ./h263rps $command $places$(needed "$command") [OPTION..]"
    echo
    echo "$does"
    echo
    for name in $(option_names "$1"); do
        option_row "$name"
        [[ " $needers " != *" $1 "* ]] || default=''
        printf '  %-14s%s\n' "--$option${value:+ $value}" "$(told_option)"
    done
    echo
    echo "docs/COMMANDS.md has an example of it, and says what each status means."
}

# The options that a command needs, as they stand among its words.
needed() {
    local name
    for name in $(option_names "$1"); do
        option_row "$name"
        [[ " $needers " != *" $1 "* ]] || printf ' --%s %s' "$option" "$value"
    done
}

# What may stand after an option: words, or `file`.
values_of() {
    option_row "$1"
    case $value:$range in
        FILE:*) echo file ;;
        C:* | F:*) range=${range/ or / } && echo "${range//,/}" ;;
        *:'1 or 2') echo '1 2' ;;
    esac
}

# completion SHELL: a script for bash or zsh, for ./h263rps and for h263rps in the PATH.
completion() {
    case $1 in
        bash) bash_completion ;;
        zsh)
            echo 'autoload -U +X compinit && compinit; autoload -U +X bashcompinit && bashcompinit'
            # shellcheck disable=SC2016
            bash_completion | sed 's/mapfile -t COMPREPLY < <(\(.*\))/COMPREPLY=($(\1))/'
            ;;
        *) return 1 ;;
    esac
}

# The lines between the tables are the same for every command.
bash_completion() {
    local name
    cat <<'END'
_h263rps() {
    local word=${COMP_WORDS[COMP_CWORD]} before=${COMP_WORDS[COMP_CWORD-1]} options= values= command=${COMP_WORDS[1]}
    case $command in
END
    for name in "${COMMANDS[@]%%|*}"; do
        echo "        $name) options='$(option_names "$name" | sed 's/^/--/' | tr '\n' ' ')--help' ;;"
    done
    cat <<'END'
    esac
    case $before in
END
    for name in "${OPTIONS[@]%%|*}"; do
        option_row "$name"
        [ -z "$value" ] || echo "        --$name) values='$(values_of "$name")'; [ -n \"\$values\" ] || return ;;"
    done
    cat <<END
    esac
    [ "\$COMP_CWORD" != 1 ] || values='$(command_names | tr '\n' ' ')--help --version --quiet --man --completion'
END
    cat <<'END'
    case $values:$word in
        file:* | :[!-]* | :) mapfile -t COMPREPLY < <(compgen -f -- "$word") ;;
        :*) mapfile -t COMPREPLY < <(compgen -W "$options" -- "$word") ;;
        *) mapfile -t COMPREPLY < <(compgen -W "$values" -- "$word") ;;
    esac
}
complete -o filenames -F _h263rps h263rps ./h263rps
END
}

# manual VERSION: a page for man.
manual() {
    local row name
    # A hyphen of an option is a minus in a manual, so that it can be searched for.
    echo ".TH H263RPS 1 \"\" \"h263rps $1\""
    printf '.SH NAME\nh263rps \\- a video telephone over networks that lose packets\n.SH SYNOPSIS\n'
    for row in "${COMMANDS[@]}"; do
        IFS='|' read -r command places does <<< "$row"
        name=$(needed "$command")
        printf '\\fBh263rps %s\\fR %s [OPTION..]\n.br\n' "$command" "$places${name//-/\\-}"
    done
    echo '.SH COMMANDS'
    for row in "${COMMANDS[@]}"; do
        IFS='|' read -r command places does <<< "$row"
        printf '.TP\n.B %s \\fI%s\\fR\n%s.\n' "$command" "$places" "$does"
    done
    echo '.SH OPTIONS'
    for name in "${OPTIONS[@]%%|*}"; do
        option_row "$name"
        printf '.TP\n.B \\-\\-%s \\fI%s\\fR\n%s. For: %s.\n' "$name" "$value" "$(told_option)" "$(told_takers)"
    done
    cat <<'END'
.SH EXIT STATUS
0: done. 1: memory ran out. 2: the command line is invalid. 3, 4: a read or a write failed.
5, 6, 7, 9: the video, the trace, the log or the second video has a fault.
8: a file could not be opened, or has another role. 125: the program could not be made or run.
.SH SEE ALSO
docs/COMMANDS.md and docs/FORMATS.md of the repository
END
}
