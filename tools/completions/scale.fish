# Completion of `scale` and `pace` for fish: `source tools/completions/scale.fish`, or put it into ~/.config/fish/completions.

# The word of a command that comes next: the name that `scale help` has for it.
function __scale_next
    set -l given (commandline -opc)
    set -l program (path basename -- $given[1])
    set -l command "$program $given[2]"
    set -l at 2
    if test "$command" = "pace draw"
        set command "pace draw $given[3]"
        set at 3
    end
    set -l words
    switch $command
        case "scale hold" "scale rewrite" "pace draw plan"
            set words IMAGE MACHINE LOOPS OUT
        case "scale report" "pace show" "pace explain"
            set words IMAGE MACHINE LOOPS
        case "scale simulate"
            set words IMAGE MACHINE INPUT OUT LOOPS
        case "scale make"
            set words NUMBER SIZE PREFIX
        case "scale check"
            set words IMAGE FOREIGN MACHINE LOOPS
        case "scale lower"
            set words IMAGE JUMPS OUT
        case "scale survey"
            set words IMAGE SCALED MACHINE LOOPS INPUT ..
        case "pace jumps" "pace split"
            set words IMAGE OUT
        case "pace all"
            set words IMAGE MACHINE OUT INPUT ..
        case "pace loops"
            set words IMAGE OUT INPUT ..
        case "pace draw run"
            set words MACHINE OUT IMAGE INPUT ..
        case "scale tune" "pace fit"
            set words IMAGE MACHINE LOOPS OUT INPUT ..
    end
    set -l number (math (count $given) - $at + 1)
    if test (count $words) -gt 0 -a "$words[-1]" = .. -a $number -ge (count $words)
        echo INPUT
    else if test $number -ge 1 -a $number -le (count $words)
        echo $words[$number]
    end
end

# Whether the next word is a part of `pace draw`.
function __scale_draws
    set -l given (commandline -opc)
    test (count $given) -eq 2 -a "$given[2]" = draw
end

# Whether that word is one of these kinds.
function __scale_wants
    contains -- (__scale_next) $argv
end

set -l tables MACHINE LOOPS JUMPS
set -l files IMAGE FOREIGN SCALED INPUT OUT PREFIX
for program in scale pace
    complete -c $program -f
    complete -c $program -n "__scale_wants $tables" -a "(__fish_complete_suffix .toml | string match -e -r '(?:[.]toml|/)(?:\t|\$)')"
    complete -c $program -n "__scale_wants $files" -F
end

complete -c pace -n "__fish_seen_subcommand_from loops all" -l input-bytes -x -d "Take it that no input has more bytes"
complete -c pace -n "__fish_seen_subcommand_from loops" -l trust-stores -d "Trust stores of which nothing is known, where that bounds more"
complete -c pace -n "__fish_seen_subcommand_from fit" -l versions -d "Try images in which code is there twice, too"
complete -c pace -n "__fish_seen_subcommand_from all" -l no-versions -d "Try no images in which code is there twice"

complete -c scale -n __fish_use_subcommand -a hold -d "Store the image at one speed, the slowest that is in time"
complete -c scale -n __fish_use_subcommand -a rewrite -d "Store an image that slows down on its way"
complete -c scale -n __fish_use_subcommand -a report -d "Print what rewrite would do"
complete -c scale -n __fish_use_subcommand -a simulate -d "Run an image, and print its time and its energy"
complete -c scale -n __fish_use_subcommand -a make -d "Generate a program with its files"
complete -c scale -n __fish_use_subcommand -a help -d "Print the words of each command"
complete -c scale -n __fish_use_subcommand -a check -d "Say whether an image that another tool rewrote is safe"
complete -c scale -n __fish_use_subcommand -a lower -d "Replace far calls and jump tables by direct jumps"
complete -c scale -n __fish_use_subcommand -a survey -d "Run two images on a list of inputs, and compare them"
complete -c scale -n __fish_use_subcommand -a tune -d "Store the image that is cheapest on a list of inputs"
complete -c pace -n __fish_use_subcommand -a fit -d "Store an image whose few switches are chosen by runs on given inputs"
complete -c pace -n __fish_use_subcommand -a show -d "Print what keeps the level of a program from being lowered"
complete -c pace -n __fish_use_subcommand -a loops -d "Store a draft of the loop file of a program"
complete -c pace -n __fish_use_subcommand -a explain -d "Print where the worst case goes, by function and by loop"
complete -c pace -n __fish_use_subcommand -a draw -d "Store a picture of runs, or the graph of a program's code"
complete -c pace -n __scale_draws -a run -d "Store a picture of runs on one axis of time"
complete -c pace -n __scale_draws -a plan -d "Store the graph of a program's code for Graphviz"
complete -c pace -n __fish_use_subcommand -a jumps -d "Store a draft of the jump file of a program"
complete -c pace -n __fish_use_subcommand -a split -d "Store an image each of whose loops is entered at one place"
complete -c pace -n __fish_use_subcommand -a all -d "Draft and lower jumps, draft loops, and store the image that is fitted to inputs"
