# Completion of p10, p10-lint, p10-report and p10-stack for bash. Put into ~/.bashrc:
#
#     source /path/to/tools/completion/p10.bash

# Files of these endings and folders that begin with $cur.
_p10_files() {
    local ending
    compopt -o filenames 2>/dev/null
    mapfile -t COMPREPLY < <(
        compgen -d -- "$cur"
        for ending in "$@"; do compgen -f -X "!*.$ending" -- "$cur"; done
    )
}

# Words that begin with $cur.
_p10_words() {
    mapfile -t COMPREPLY < <(compgen -W "$*" -- "$cur")
}

# What the option before the cursor takes; fails where it takes nothing.
_p10_value() {
    case $prev in
    --include | -I)
        compopt -o filenames 2>/dev/null
        mapfile -t COMPREPLY < <(compgen -d -- "$cur")
        ;;
    --cert | --since) _p10_files p10 ;;
    --cert-version) _p10_words 1 2 ;;
    --su) _p10_files su ;;
    --format) if [ "$program" = p10 ]; then _p10_words text json; else _p10_words gcc sarif gitlab junit; fi ;;
    --library) [ "$program" = p10-stack ] && compopt -o nospace 2>/dev/null && _p10_words {assert,c_assert,getchar,putchar,malloc,calloc,free}= ;;
    -p | --compile-commands) _p10_files json ;;
    -o | --output | --stamp | --depfile | --p10 | --sensors) _p10_files '*' ;;
    --steps | --turns | --deny | --title | --docs | --entry | --runtime | --interrupt | --inlined | -D) COMPREPLY=() ;;
    *) return 1 ;;
    esac
}

_p10() {
    local cur=${COMP_WORDS[COMP_CWORD]} prev=${COMP_WORDS[COMP_CWORD - 1]} program=${COMP_WORDS[0]##*/} options
    COMPREPLY=()
    # bash cuts words at `=`
    if [ "$cur" = = ]; then
        cur=
    elif [ "$prev" = = ]; then
        prev=${COMP_WORDS[COMP_CWORD - 2]}
    fi
    if [ "$program" = p10 ] && [ "$COMP_CWORD" -eq 1 ]; then
        _p10_words check derive verify run gen migrate recheck
        return
    fi
    _p10_value && return
    case $program:${COMP_WORDS[1]} in
    p10:check) options='--include --format' ;;
    p10:derive) options='--include --cert-version --diff' ;;
    p10:verify) options='--include --clean --cert' ;;
    p10:run) options='--include --steps --cert --turns --deny --sensors' ;;
    p10:migrate) options='--include --cert' ;;
    p10:recheck) options='--include --since --cert' ;;
    p10:*) return ;;
    p10-lint:*) options='--compile-commands --library --include --format --output --stamp --depfile --quiet --p10 --version --help' ;;
    p10-report:*) options='--cert --include --output --title --docs --p10 --version --help' ;;
    p10-stack:*) options='--su --cert --include --entry --library --runtime --interrupt --no-interrupts --inlined --p10 --version --help' ;;
    esac
    if [[ $cur == -* ]]; then
        _p10_words "$options"
    else
        _p10_files c
    fi
}

complete -F _p10 p10 p10-lint p10-report p10-stack
