# Completions of dk for fish: commands, options and file words. Install this file in a folder of $fish_complete_path.

# __dk_command [COMMAND..]: the call has one of these commands; without a name, it has none yet
function __dk_command
    set -l words (commandline -opc)
    if test (count $argv) = 0
        test (count $words) = 1
    else
        test (count $words) -gt 1; and contains -- $words[2] $argv; and not contains -- -- $words
    end
end

# __dk_words: the files that the next word may name
function __dk_words
    set -l words (commandline -opc)
    set -l kinds
    switch "$words[2]"
        case run eval
            set kinds .dk .pgm any
        case compile check narrow
            set kinds .dk any
        case plan nets explain
            set kinds .dk
        case sim trace
            set kinds .v number .pgm any
        case make
            set kinds number
        case cut widen
            set kinds number .dk any
    end
    set -l at 1
    set -l is_value
    set -l is_file
    for word in $words[3..]
        if test -n "$is_value"
            set is_value
        else if test -n "$is_file"
            set at (math $at + 1)
        else
            switch $word
                case --
                    set is_file yes
                case --age --block --fill --hold
                    set is_value yes
                case '-?*'
                case '*'
                    set at (math $at + 1)
            end
        end
    end
    switch "$kinds[$at]"
        case any
            __fish_complete_path (commandline -ct)
        case '.*'
            __fish_complete_suffix $kinds[$at]
    end
end

complete -c dk -f
complete -c dk -n __dk_command -a run -d 'compile, clock the circuit on images and write the pictures'
complete -c dk -n __dk_command -a compile -d 'write the Verilog text'
complete -c dk -n __dk_command -a nets -d 'print which net of the Verilog text is which image'
complete -c dk -n __dk_command -a plan -d 'write the report of delays and line buffers'
complete -c dk -n __dk_command -a sim -d 'drive a Verilog text with images'
complete -c dk -n __dk_command -a eval -d 'write the pictures by the meaning of the program'
complete -c dk -n __dk_command -a make -d 'test the tool on a program made from a number'
complete -c dk -n __dk_command -a check -d 'judge a report'
complete -c dk -n __dk_command -a trace -d 'write the value change dump of a Verilog text'
complete -c dk -n __dk_command -a cut -d 'write a program with fewer levels of operators'
complete -c dk -n __dk_command -a narrow -d 'write a program with narrower images'
complete -c dk -n __dk_command -a widen -d 'write a program that takes several pixels a clock'
complete -c dk -n __dk_command -a explain -d 'print the faults of a program, with what helps'
complete -c dk -n __dk_command -a help -d 'print the commands and options, or the help of a command'
complete -c dk -n __dk_command -l version -d 'print the version, the kit and the sources'
complete -c dk -n 'not contains -- -- (commandline -opc)' -s h -l help -d 'print help'
complete -c dk -n '__dk_command help' -a 'run compile nets plan sim eval make check trace cut narrow widen explain'
complete -c dk -n '__dk_command run compile nets plan' -x -l age -d 'least age of a live read, 0 to 64'
complete -c dk -n '__dk_command compile nets' -l enable -d 'add a clock enable'
complete -c dk -n '__dk_command compile nets' -x -l block -d 'fewest words of a block memory, 2 to 67108864'
complete -c dk -n '__dk_command sim' -x -l fill -a 'zeros ones' -d 'contents before the first clock'
complete -c dk -n '__dk_command sim' -x -l hold -d 'a held clock after every K, 1 to 1000000'
complete -c dk -n 'not __dk_command' -k -a '(__dk_words)'
