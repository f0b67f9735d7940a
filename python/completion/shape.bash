# Completion of the command `shape` for bash: the words of its forms (`shape --help`), and files where a form has one.
# Where a form changes, change shape.zsh and shape.fish as well; python/tests/test_completion.py tries all three.

# The words that may follow the given ones; FILE among them stands for files.
_shape_next() {
    case $#:${1-} in
        0:) echo analyse check edges pieces balls checkedges checkpieces checkballs draw measure mask trial help --help --version ;;
        1:help) echo analyse check edges checkedges pieces checkpieces balls checkballs draw measure mask trial ;;
        1:draw) echo labels contours measures FILE ;;
        1:mask) echo skeleton object distances squares thickness ;;
        2:draw | 2:mask) echo FILE ;;
        1:analyse | 1:check | 1:balls | 1:checkballs | 1:trial) echo pbm raw ;;
        1:edges | 1:pieces | 1:checkedges | 1:checkpieces) echo pbm ;;
        *:measure) _shape_measure "${@:2}" ;;
        *:analyse | *:check* | *:edges | *:pieces | *:balls) _shape_source "$@" ;;
    esac
}

# What follows in a table's form; three sides follow `spacing`.
_shape_measure() {
    case "$#:$*" in
        0:) echo moments thickness spacing whole FILE ;;
        1:moments) echo thickness spacing FILE ;;
        1:thickness | 2:"moments thickness") echo spacing FILE ;;
        1:whole | 4:"spacing "* | 5:"moments spacing "* | 5:"thickness spacing "* | 6:"moments thickness spacing "*) echo FILE ;;
    esac
}

# What follows the kind of a source: of a volume three sides, then the file, then a rule or a report.
_shape_source() {
    local sides=0
    [ "$2" = raw ] && sides=3
    case $1:$(($# - sides)) in
        *:2) echo FILE ;;
        analyse:3) echo none curve few ;;
        check*:3) echo FILE ;;
    esac
}

_shape() {
    local word=${COMP_WORDS[COMP_CWORD]} next
    COMPREPLY=()
    case ${COMP_WORDS[COMP_CWORD - 1]} in
        *[\<\>]) next=" FILE " ;;
        *) next=" $(_shape_next "${COMP_WORDS[@]:1:COMP_CWORD-1}") " ;;
    esac
    ((COMP_CWORD == 2)) && [[ $word == -* ]] && next=" --help "
    mapfile -t COMPREPLY < <(compgen -W "${next/ FILE / }" -- "$word")
    [[ $next == *" FILE "* ]] || return 0
    if ((${#COMPREPLY[@]})); then
        compopt -o filenames
        mapfile -t -O ${#COMPREPLY[@]} COMPREPLY < <(compgen -f -- "$word")
    else
        compopt -o default # readline's own files, which know of quotes
    fi
}

complete -F _shape shape
