# Completion of the command `shape` for fish: the words of its forms (`shape --help`), and files where a form has one.
# Where a form changes, change shape.bash and shape.zsh as well; python/tests/test_completion.py tries all three.

# What follows in a table's form; three sides follow `spacing`.
function __shape_measure
    switch (count $argv):"$argv"
        case 0:
            printf '%s\n' moments thickness spacing whole FILE
        case 1:moments
            printf '%s\n' thickness spacing FILE
        case 1:thickness '2:moments thickness'
            printf '%s\n' spacing FILE
        case 1:whole '4:spacing *' '5:moments spacing *' '5:thickness spacing *' '6:moments thickness spacing *'
            echo FILE
    end
end

# What follows the kind of a source: of a volume three sides, then the file, then a rule or a report.
function __shape_source
    set -l sides 0
    test "$argv[2]" = raw; and set sides 3
    switch $argv[1]:(math (count $argv) - $sides)
        case '*:2'
            echo FILE
        case analyse:3
            printf '%s\n' none curve few
        case 'check*:3'
            echo FILE
    end
end

# The words that may follow those before the cursor; FILE among them stands for files.
function __shape_next
    set -l given (commandline -opc)[2..-1]
    switch (count $given):"$given[1]"
        case 1:help
            printf '%s\n' analyse check edges checkedges pieces checkpieces balls checkballs draw measure mask trial
        case 1:draw
            printf '%s\n' labels contours measures FILE
        case 1:mask
            printf '%s\n' skeleton object distances squares thickness
        case 2:draw 2:mask
            echo FILE
        case 1:analyse 1:check 1:balls 1:checkballs 1:trial
            printf '%s\n' pbm raw
        case 1:edges 1:pieces 1:checkedges 1:checkpieces
            echo pbm
        case '*:measure'
            __shape_measure $given[2..-1]
        case '*:analyse' '*:check*' '*:edges' '*:pieces' '*:balls'
            __shape_source $given
    end
end

complete -c shape -f
complete -c shape -n 'not contains FILE (__shape_next)' -a '(__shape_next)'
complete -c shape -n 'contains FILE (__shape_next)' -F -a '(string match -v FILE (__shape_next))'
complete -c shape -n 'test (count (commandline -opc)) = 2' -l help -d 'more of this word'
complete -c shape -n __fish_use_subcommand -a analyse -d 'the report of a picture or a volume'
complete -c shape -n __fish_use_subcommand -a check -d 'whether such a report holds'
complete -c shape -n __fish_use_subcommand -a edges -d 'a report of the maximal straight runs of each border'
complete -c shape -n __fish_use_subcommand -a pieces -d 'a report of the fewest straight pieces of each contour'
complete -c shape -n __fish_use_subcommand -a balls -d 'a report of the balls whose union is the object'
complete -c shape -n __fish_use_subcommand -a checkedges -d 'whether a report of edges holds'
complete -c shape -n __fish_use_subcommand -a checkpieces -d 'whether a report of pieces holds'
complete -c shape -n __fish_use_subcommand -a checkballs -d 'whether a report of balls holds'
complete -c shape -n __fish_use_subcommand -a draw -d 'a drawing of a report as SVG'
complete -c shape -n __fish_use_subcommand -a measure -d 'a table of the objects as CSV'
complete -c shape -n __fish_use_subcommand -a mask -d 'a raw picture or volume of what a report says'
complete -c shape -n __fish_use_subcommand -a trial -d 'the numbers of a picture made of a seed'
complete -c shape -n __fish_use_subcommand -a help -d 'more of a word'
complete -c shape -n __fish_use_subcommand -l help -d 'all forms'
complete -c shape -n __fish_use_subcommand -l version -d 'the version'
