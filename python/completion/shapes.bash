# Completion of the command `shapes` for bash. Made by python/completion/make of the command's words: a change here is lost.

# The options of a command.
_shapes_options() {
    case $1 in
        measure) echo '-h|--help|--intensities|--network|--prune|--classes|--sides|--long|--pixel-size|--dpi|--rule|--plain|--no-draw|--no-report|--thickness|--masks|--share|--base|--patience|-o|--threshold|--auto|--dark|--light|--labels|--labels-together|--channel|--background|--smooth|--fill-holes|--exclude-border|--min-size|--fit|--jobs' ;;
        volume) echo '-h|--help|--sides|--type|--no-metadata|--cubes|--region|--separation|--mesh|--network|--prune|--classes|--pixel-size|--dpi|--rule|--plain|--no-draw|--no-report|--thickness|--masks|--share|--base|--patience|-o|--voxel-size|--threshold|--auto|--dark|--light|--labels|--labels-together|--channel|--background|--smooth|--fill-holes|--exclude-border|--min-size|--fit|--jobs' ;;
        join) echo '-h|--help|--base|--patience' ;;
        check) echo '-h|--help|--second|--share|--tables|--originals|--allow|--intensities|--threshold|--auto|--dark|--light|--labels|--labels-together|--channel|--background|--smooth|--fill-holes|--exclude-border|--min-size|--fit|--jobs' ;;
        export) echo '-h|--help|--pixel-size|--dpi|--long|-o' ;;
    esac
}

# What each word behind an option of a command is: FILE, FOLDER, - for any, or words with | between them.
_shapes_values() {
    case $1:$2 in
        measure:--intensities) echo 'FILE' ;;
        measure:--prune) echo '-' ;;
        measure:--classes) echo '-' ;;
        measure:--long) echo '-' ;;
        measure:--pixel-size) echo '- nm|um|mm|cm|m' ;;
        measure:--dpi) echo '-' ;;
        measure:--rule) echo 'none|curve|few' ;;
        measure:--masks) echo 'object|skeleton|distances|squares|thickness' ;;
        measure:--share) echo '-' ;;
        measure:--base) echo 'FOLDER' ;;
        measure:--patience) echo '-' ;;
        measure:-o) echo 'FOLDER' ;;
        measure:--threshold) echo '-' ;;
        measure:--channel) echo 'red|green|blue|alpha' ;;
        measure:--background) echo '-' ;;
        measure:--smooth) echo '-' ;;
        measure:--min-size) echo '-' ;;
        measure:--jobs) echo '-' ;;
        volume:--sides) echo '- - -' ;;
        volume:--type) echo 'uint8|int8|uint16|int16|uint32|int32|float32|float64' ;;
        volume:--region) echo 'FILE' ;;
        volume:--prune) echo '-' ;;
        volume:--classes) echo '-' ;;
        volume:--pixel-size) echo '- nm|um|mm|cm|m' ;;
        volume:--dpi) echo '-' ;;
        volume:--rule) echo 'none|curve|few' ;;
        volume:--masks) echo 'object|skeleton|distances|squares|thickness' ;;
        volume:--share) echo '-' ;;
        volume:--base) echo 'FOLDER' ;;
        volume:--patience) echo '-' ;;
        volume:-o) echo 'FOLDER' ;;
        volume:--voxel-size) echo '- - - nm|um|mm|cm|m' ;;
        volume:--threshold) echo '-' ;;
        volume:--channel) echo 'red|green|blue|alpha' ;;
        volume:--background) echo '-' ;;
        volume:--smooth) echo '-' ;;
        volume:--min-size) echo '-' ;;
        volume:--jobs) echo '-' ;;
        join:--base) echo 'FOLDER' ;;
        join:--patience) echo '-' ;;
        check:--share) echo '-' ;;
        check:--originals) echo 'FILE' ;;
        check:--allow) echo 'FILE' ;;
        check:--intensities) echo 'FILE' ;;
        check:--threshold) echo '-' ;;
        check:--channel) echo 'red|green|blue|alpha' ;;
        check:--background) echo '-' ;;
        check:--smooth) echo '-' ;;
        check:--min-size) echo '-' ;;
        check:--jobs) echo '-' ;;
        export:--pixel-size) echo '-' ;;
        export:--dpi) echo '-' ;;
        export:--long) echo '-' ;;
        export:-o) echo 'FILE' ;;
    esac
}

# The words of which the first one that is no option has to be one.
_shapes_first() {
    case $1 in
        export) echo 'dxf|ply' ;;
    esac
}

# What the word is that follows the given ones.
_shapes_kind() {
    local k kinds
    for ((k = 1; k < $# && k < 5; k++)); do
        read -ra kinds < <(_shapes_values "$1" "${@:$# - k + 1:1}")
        ((${#kinds[@]} < k)) || { echo "${kinds[k - 1]}"; return; }
    done
    local first=$(_shapes_first "$1") word
    for word in "${@:2}"; do [[ "|$first|" == *"|$word|"* ]] && first=; done
    echo "${first:-FILE}"
}

_shapes() {
    local word=${COMP_WORDS[COMP_CWORD]} kind=FILE
    COMPREPLY=()
    if ((COMP_CWORD == 1)); then
        kind="measure|volume|join|check|export|--help|--version"
    elif [[ ${COMP_WORDS[COMP_CWORD - 1]} != *[\<\>] ]]; then
        kind=$(_shapes_kind "${COMP_WORDS[@]:1:COMP_CWORD-1}")
        [[ $word == -* && $kind == FILE ]] && kind=$(_shapes_options "${COMP_WORDS[1]}")
    fi
    case $kind in
        -) ;;
        FILE) compopt -o default ;; # readline's own files, which know of quotes
        FOLDER) compopt -o dirnames ;;
        *) mapfile -t COMPREPLY < <(compgen -W "${kind//|/ }" -- "$word") ;;
    esac
}

complete -F _shapes shapes
