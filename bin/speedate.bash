# Completions of speedate for bash: its commands, and the options of each, as its --help has them.
# shellcheck shell=bash

_speedate() {
    local word=${COMP_WORDS[COMP_CWORD]} before=${COMP_WORDS[COMP_CWORD - 1]} words=
    # Bash takes the = of an option for a word.
    [ "$before" != = ] || before=${COMP_WORDS[COMP_CWORD - 2]}
    if [ "$word" = = ]; then before=${COMP_WORDS[COMP_CWORD - 1]} word=; fi
    case $before in
    --kind) words='datetime date seconds milliseconds microseconds' ;;
    --digits) words=6 ;;
    --offset) words=utc ;;
    --undated) words='join drop bad' ;;
    --bad) words='keep stop' ;;
    --to) words='text utc' && [ "${COMP_WORDS[1]}" != sum ] || words='text hours' ;;
    --fraction) words='0 3 6 9' ;;
    *)
        if [ "$COMP_CWORD" = 1 ]; then
            words=$(speedate --help 2>/dev/null | sed -n 's/^  \([a-z]\{1,\}\) .*/\1/p')
        elif [ "${word#-}" != "$word" ]; then
            words=$(speedate "${COMP_WORDS[1]}" --help 2>/dev/null | grep -o -e '--[a-z-]*' | sort -u)
        fi
        ;;
    esac
    mapfile -t COMPREPLY < <(compgen -W "$words" -- "$word")
}

complete -o default -F _speedate speedate
