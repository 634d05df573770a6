# Completion of anb for fish. Each command has its line, and each of the words that it takes.

# How many words a command takes before its options.
function __anb_count
    switch "$argv[1]"
        case chart fmt why drill
            echo 1
        case explain compile stage enact
            echo 2
        case play branch host rehearse certify values probe check
            echo 3
        case park resume replay trace judge
            echo 4
        case '*'
            echo 0
    end
end

# Whether the word to complete is the first.
function __anb_first
    test (count (commandline -opc)) -eq 1
end

# Whether the command is one of these and the word to complete has this place after it, from 1.
function __anb_at
    set -l words (commandline -opc)
    test (count $words) -eq (math $argv[1] + 1); and contains -- $words[2] $argv[2..]
end

# Whether an option can stand here, or its value: after all other words of these commands, in its order and once.
function __anb_option
    set -l words (commandline -opc)
    test (count $words) -ge 2; and contains -- $words[2] $argv[2..]
    or return 1
    set -l before (math (__anb_count $words[2]) + 2)
    test (count $words) -ge $before
    or return 1
    set -l rest
    test (count $words) -gt $before; and set rest $words[(math $before + 1)..]
    if test "$words[2]" = stage
        while test (count $rest) -ge 3 -a "$rest[1]" = --as
            set -e rest[1..3]
        end
    end
    if test "$argv[1]" = as
        test (count $rest) -eq 0 -o "$rest" = --as
        return
    end
    if test "$argv[1]" = role -o "$argv[1]" = arm -o "$argv[1]" = session -o "$argv[1]" = silence
        test (count $rest) -eq 0 -o "$rest" = "--$argv[1]" -o "$argv[1]$rest" = silence--timeout
        return
    end
    if test (count $rest) -ge 2 -a "$rest[1]" = --arm
        set -e rest[1..2]
    end
    switch $argv[1]
        case place
            test (count $rest) -eq 0 -o "$rest" = --dial -o "$rest" = --listen
        case timeout
            contains -- "$rest[1]" --dial --listen
            and test (count $rest) -eq 2 -o \( (count $rest) -eq 3 -a "$rest[-1]" = --timeout \)
        case record
            if test "$words[2]" = stage -a (count $rest) -ge 2 -a "$rest[1]" = --timeout
                set -e rest[1..2]
            end
            if contains -- "$rest[1]" --dial --listen; and test (count $rest) -ge 2
                set -e rest[1..2]
                test (count $rest) -ge 2 -a "$rest[1]" = --timeout; and set -e rest[1..2]
            end
            test (count $rest) -eq 0 -o "$rest" = --record
    end
end

# Whether the program of a role of a stage stands here.
function __anb_cast
    set -l words (commandline -opc)
    test (count $words) -ge 6 -a "$words[2]" = stage -a "$words[-2]" = --as
end

# Whether this word of probe can stand here: before the program or the place, in its order and once.
function __anb_probing
    set -l words (commandline -opc)
    test (count $words) -ge 5 -a "$words[2]" = probe
    or return 1
    set -l rest
    test (count $words) -gt 5; and set rest $words[6..]
    contains -- -- $rest; and return 1
    for word in --all --case --timeout --record --dial
        if test "$argv[1]" = $word; or test $word = --dial -a "$argv[1]" = --
            test (count $rest) -eq 0
            return
        end
        if test (count $rest) -ge 1 -a "$rest[1]" = $word
            set -e rest[1]
            test $word = --all; and continue
            test (count $rest) -ge 1; or return 1
            set -e rest[1]
        end
    end
    return 1
end

# Whether the words of a tested program stand here, or the first of them.
function __anb_program
    set -l words (commandline -opc)
    test "$words[2]" = probe; and contains -- -- $words
end

function __anb_program_first
    set -l words (commandline -opc)
    test "$words[2]" = probe -a "$words[-1]" = --
end

# The agents that the narration declares, in all lists, also over several lines. Its name may have ~ or $HOME.
function __anb_roles
    set -l words (commandline -opc)
    set -l file (string replace -r '^(~|\$HOME|\{\$HOME\})/' "$HOME/" -- $words[3])
    test -f "$file"; and awk '
        { sub(/#.*/, ""); text = text " " $0 }
        END {
            sub(/(Formats|Knowledge|Actions)[ \t\r]*:.*/, "", text)
            count = split(text, items, ";")
            for (i = 1; i <= count; i++)
                if (match(items[i], /(^|[^A-Za-z0-9_])Agent[ \t\r]+/)) {
                    names = substr(items[i], RSTART + RLENGTH)
                    gsub(/[^A-Za-z0-9_]+/, "\n", names)
                    print names
                }
        }' <$file | string match -r '.+'
end

complete -c anb -f
complete -c anb -n __anb_first -a check -d 'Say why a narration is refused, or what its roles check'
complete -c anb -n __anb_first -a chart -d 'Draw a narration'
complete -c anb -n __anb_first -a explain -d 'Write what a role does'
complete -c anb -n __anb_first -a fmt -d 'Write the canonical text'
complete -c anb -n __anb_first -a why -d 'Say what the sender of a message lacks'
complete -c anb -n __anb_first -a play -d 'Play a role'
complete -c anb -n __anb_first -a probe -d 'Test an implementation of a role'
complete -c anb -n __anb_first -a branch -d 'Play a role of a text with a choice'
complete -c anb -n __anb_first -a park -d 'Play a role and park it'
complete -c anb -n __anb_first -a resume -d 'Go on from a parked session'
complete -c anb -n __anb_first -a host -d 'Serve many sessions of a role'
complete -c anb -n __anb_first -a values -d 'Write values files'
complete -c anb -n __anb_first -a replay -d 'Compare a transcript with a role'
complete -c anb -n __anb_first -a trace -d 'Tell step by step what a role does'
complete -c anb -n __anb_first -a judge -d 'Judge a transcript whatever the role drew'
complete -c anb -n __anb_first -a stage -d 'Relay among children of all roles'
complete -c anb -n __anb_first -a rehearse -d 'Rehearse all roles'
complete -c anb -n __anb_first -a drill -d 'Write how large a rehearsal is'
complete -c anb -n __anb_first -a compile -d 'Write the code of a role'
complete -c anb -n __anb_first -a enact -d 'Run the code of a role file'
complete -c anb -n __anb_first -a certify -d 'Certify the code of a role file'
complete -c anb -n __anb_first -a help -d 'List the commands'
complete -c anb -n __anb_first -l help -d 'Say what the commands are for'
complete -c anb -n __anb_first -l version -d 'Write the version'
complete -c anb -n '__anb_at 1 help' -a 'check chart explain fmt why play probe values branch park resume host replay trace judge stage rehearse drill compile enact certify help' -d Command

set -l with_role check explain compile play probe values branch host park resume replay trace judge certify
complete -c anb -n "__anb_at 1 chart fmt why stage rehearse $with_role" -k -a '(__fish_complete_suffix .anb)'
complete -c anb -n "__anb_at 2 $with_role" -a '(__anb_roles)' -d Role
complete -c anb -n '__anb_at 3 check play probe values branch host park replay trace judge' -k -a '(__fish_complete_suffix .values)'
complete -c anb -n '__anb_at 2 rehearse stage enact' -k -a '(__fish_complete_suffix .values)'
complete -c anb -n '__anb_at 1 enact' -F
complete -c anb -n '__anb_at 3 rehearse certify resume' -F
complete -c anb -n '__anb_at 4 park resume replay trace judge' -F

set -l with_place play branch host park resume enact
complete -c anb -n '__anb_option role chart' -x -l role -a '(__anb_roles)' -d 'The role whose notes are drawn'
complete -c anb -n '__anb_option session replay trace' -x -l session -d 'The number of the session'
complete -c anb -n '__anb_option arm branch' -x -l arm -a '1 2 3 4 5 6 7 8' -d 'The arm that is taken'
complete -c anb -n "__anb_option place $with_place" -x -l dial -d 'Connect to host:port'
complete -c anb -n "__anb_option place $with_place" -x -l listen -d 'Wait for a connection at host:port'
complete -c anb -n '__anb_option as stage' -x -l as -a '(__anb_roles)' -d 'The program that plays a role'
complete -c anb -n __anb_cast -F
complete -c anb -n '__anb_option silence stage' -x -l timeout -d 'Seconds that a child may be silent'
complete -c anb -n "__anb_option timeout $with_place" -x -l timeout -d 'Seconds to wait'
complete -c anb -n '__anb_option record park resume' -r -F -l record -d 'The file of the record'
complete -c anb -n '__anb_option record play enact branch host' -x -l record -a '(__fish_complete_directories)' -d 'The folder of the recording'
complete -c anb -n '__anb_option record stage' -x -l record -a '(__fish_complete_directories)' -d 'The folder of the record'
complete -c anb -n '__anb_probing --all' -l all -d 'Try more of each check'
complete -c anb -n '__anb_probing --case' -x -l case -d 'The case of this number alone'
complete -c anb -n '__anb_probing --timeout' -x -l timeout -d 'Seconds that the program may be silent'
complete -c anb -n '__anb_probing --record' -x -l record -a '(__fish_complete_directories)' -d 'The folder of the record'
complete -c anb -n '__anb_probing --dial' -x -l dial -d 'Connect to host:port'
complete -c anb -n '__anb_probing --' -a -- -d 'The program and its words'
complete -c anb -n __anb_program_first -a '(__fish_complete_command)'
complete -c anb -n __anb_program -F
