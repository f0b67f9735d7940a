#compdef shape
# Completion of the command `shape` for zsh: the words of its forms (`shape --help`), and files where a form has one.
# Where a form changes, change shape.bash and shape.fish as well; python/tests/test_completion.py tries all three.

_shape_commands() {
    local -a commands=(
        'analyse:the report of a picture or a volume'
        'check:whether such a report holds'
        'edges:a report of the maximal straight runs of each border'
        'pieces:a report of the fewest straight pieces of each contour'
        'balls:a report of the balls whose union is the object'
        'checkedges:whether a report of edges holds'
        'checkpieces:whether a report of pieces holds'
        'checkballs:whether a report of balls holds'
        'draw:a drawing of a report as SVG'
        'measure:a table of the objects as CSV'
        'mask:a raw picture or volume of what a report says'
        'trial:the numbers of a picture made of a seed'
        'help:more of a word'
        '--help:all forms'
        '--version:the version'
    )
    _describe command commands
}

# What follows in a table's form; three sides follow `spacing`.
_shape_measure() {
    case "$#:$*" in
        0:) compadd moments thickness spacing whole; _files ;;
        1:moments) compadd thickness spacing; _files ;;
        1:thickness | 2:'moments thickness') compadd spacing; _files ;;
        1:whole | 4:'spacing '* | 5:'moments spacing '* | 5:'thickness spacing '* | 6:'moments thickness spacing '*) _files ;;
        *) _message 'a side of a voxel' ;;
    esac
}

# What follows the kind of a source: of a volume three sides, then the file, then a rule or a report.
_shape_source() {
    local sides=0
    [[ $2 == raw ]] && sides=3
    case $1:$(($# - sides)) in
        *:-* | *:[01]) _message 'a side of the volume' ;;
        *:2) _files -g "*.$2" ;;
        analyse:3) compadd none curve few ;;
        check*:3) _files ;;
    esac
}

_shape() {
    local -a given=("${(@)words[2,CURRENT-1]}")
    if (( $#given == 1 )) && [[ $PREFIX == -* ]]; then
        compadd -- --help
        return
    fi
    case $#given:$given[1] in
        0:) _shape_commands ;;
        1:help) compadd analyse check edges checkedges pieces checkpieces balls checkballs draw measure mask trial ;;
        1:draw) compadd labels contours measures; _files ;;
        1:mask) compadd skeleton object distances squares thickness ;;
        2:draw | 2:mask) _files ;;
        1:analyse | 1:check | 1:balls | 1:checkballs | 1:trial) compadd pbm raw ;;
        1:edges | 1:pieces | 1:checkedges | 1:checkpieces) compadd pbm ;;
        *:measure) _shape_measure "${(@)given[2,-1]}" ;;
        *:analyse | *:check* | *:edges | *:pieces | *:balls) _shape_source "${(@)given}" ;;
    esac
}

_shape "$@"
