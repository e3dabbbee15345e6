# Completion for bash: `. tools/completion.bash`, or installed as share/bash-completion/completions/lockcheck.
# shellcheck shell=bash disable=SC2207 # No word that is completed here has a blank.

# Files, where the function gives no word.
__lockcheck_files() {
    compopt -o filenames 2>/dev/null
    COMPREPLY=($(compgen -f -- "$1"))
}

# The options of a script that a word follows, by its help.
__lockcheck_valued() {
    "$1" --help 2>/dev/null | sed -nE 's/^ +(--?[a-z-]+) [A-Z].*/\1/p'
}

# The options that the help of a script names. A script answers at once; a program may not be built yet.
__lockcheck_help() {
    "$1" --help 2>/dev/null | grep -oE -- '(^|[ ,])--?[a-z][a-z-]*' | tr -d ' ,' | sort -u
}

_lockcheck() {
    local word=${COMP_WORDS[COMP_CWORD]} before=${COMP_WORDS[COMP_CWORD - 1]}
    case $before in
        --workers) COMPREPLY=($(compgen -W '1 2 4 8 16' -- "$word")) ;;
        *) COMPREPLY=($(compgen -W '--workers --help -h' -- "$word")) ;;
    esac
}

_lockgraph() {
    local word=${COMP_WORDS[COMP_CWORD]} before=${COMP_WORDS[COMP_CWORD - 1]} command=${COMP_WORDS[1]} options= workers=--workers
    if [ "$COMP_CWORD" -eq 1 ]; then
        COMPREPLY=($(compgen -W 'check cut dot explain github help html json junit ktap list new reduce sarif stats --help -h --version -V' -- "$word"))
        return
    fi
    case $before in
        --workers) COMPREPLY=($(compgen -W '1 2 4 8 16' -- "$word")) && return ;;
        --only) COMPREPLY=($(compgen -W 'recursion inversion conflict forbidden' -- "$word")) && return ;;
        --class | --dependency | --most | --around | --strip | --lines) return ;;
        --map | --known | --source) __lockcheck_files "$word" && return ;;
    esac
    case $command in
        cut) options='--lines' workers= ;;
        dot) options='--all --around --class --map' ;;
        explain) options='--class --map --most --only' ;;
        github | junit | sarif) options='--known --map --most --strip' ;;
        html) options='--known --map --most --source' ;;
        json) options='--map --most' ;;
        ktap) options='--known --map --most' ;;
        list) options='--class --dependencies --dependency' ;;
        new) options='--fixed --known' ;;
        reduce) options='--from --keep-refused' ;;
    esac
    case $word in
        -*) COMPREPLY=($(compgen -W "$options $workers --help -h" -- "$word")) ;;
        *) __lockcheck_files "$word" ;;
    esac
}

# A script whose options are those of its help: the recorder of programs, which begins with options and goes on with
# a program and its arguments, and the converter.
_lockcheck_script() {
    local word=${COMP_WORDS[COMP_CWORD]} at=1 valued
    case $1 in
        *convert) at=$COMP_CWORD ;;
        *)
            valued=" $(__lockcheck_valued "$1" | tr '\n' ' ')"
            while [ "$at" -lt "$COMP_CWORD" ]; do
                case ${COMP_WORDS[at]} in
                    -*) case $valued in *" ${COMP_WORDS[at]} "*) at=$((at + 1)) ;; esac; at=$((at + 1)) ;;
                    *) break ;;
                esac
            done
            ;;
    esac
    case $word in
        -*) [ "$at" -ne "$COMP_CWORD" ] || COMPREPLY=($(compgen -W "$(__lockcheck_help "$1")" -- "$word")) ;;
        *)
            __lockcheck_files "$word"
            case $1 in
                *convert) ;;
                *) [ "$at" -ne "$COMP_CWORD" ] || COMPREPLY+=($(compgen -c -- "$word")) ;;
            esac
            ;;
    esac
}

_lockcheck_kernel() {
    local word=${COMP_WORDS[COMP_CWORD]}
    case $COMP_CWORD,${COMP_WORDS[1]} in
        1,*) COMPREPLY=($(compgen -W 'start stop' -- "$word")) ;;
        2,start) COMPREPLY=($(compgen -W '65536 262144' -- "$word")) ;;
        3,start) COMPREPLY=($(compgen -W 'counter global' -- "$word")) ;;
        2,stop) __lockcheck_files "$word" ;;
    esac
}

# Other commands are called `run`, `record` and `convert` too, so these go by their paths.
complete -F _lockcheck lockcheck
complete -F _lockgraph lockgraph
complete -F _lockcheck_script lockcheck-record lockcheck-convert
complete -F _lockcheck_script {,./}record/program/run {,./}record/kernel/convert
complete -F _lockcheck_kernel lockcheck-record-kernel {,./}record/kernel/record
