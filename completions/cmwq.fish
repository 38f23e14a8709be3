# Completion of cmwq for fish: put it into ~/.config/fish/completions.

# The words before the one that is completed, without --explain, which may stand anywhere.
function __cmwq_words
    string match -v -- --explain (commandline -opc)
end

# Whether the command is one of these.
function __cmwq_is
    set -l words (__cmwq_words)
    contains -- "$words[2]" $argv
end

# Whether a command's name is completed: the first word, or the one after `help`.
function __cmwq_wants_command
    set -l words (__cmwq_words)
    test (count $words) -eq 1; or test (count $words) -eq 2 -a "$words[2]" = help
end

# FILE: the first word after the command that is no option and no option's value.
function __cmwq_file
    set -l words (__cmwq_words)
    set -l before
    set -l earlier
    for word in $words[3..]
        if not string match -q -- '-?*' $word
            and not contains -- "$before" --capacity --from --to --flush --at --time --works --scale --id --after --never --before --limit --sweep --dat
            and not contains -- "$earlier" --before --never --sweep
            echo $word
            return
        end
        set earlier "$before"
        set before $word
    end
    return 1
end

# Whether a scenario is to be named: of `check` always, else if FILE isn't there yet.
function __cmwq_wants_file
    __cmwq_is check; or not __cmwq_file >/dev/null
end

# The names that FILE declares in lines of this word: works, actors or queues. A line that declares a queue has `max` after the name; `queue WORK
# CPU` is an instruction.
function __cmwq_names
    set -l end
    test $argv[1] = queue; and set end '[[:blank:]]\{1,\}max[[:blank:]]'
    set -l file (__cmwq_file); and sed -n "s/^[[:blank:]]*$argv[1][[:blank:]]\{1,\}\([a-z][a-z0-9_]*\)$end.*/\1/p" -- $file 2>/dev/null
end

# The works of FILE, for the last name of a list with commas.
function __cmwq_work_list
    set -l before (string match -r -- '.*,' (commandline -ct))
    for name in (__cmwq_names work)
        echo "$before$name"
    end
end

complete -c cmwq -n __cmwq_wants_command -f
complete -c cmwq -n __cmwq_wants_command -a new -d 'Write a scenario to start from, with comments'
complete -c cmwq -n __cmwq_wants_command -a run -d 'Print a line for each event of a scenario'
complete -c cmwq -n __cmwq_wants_command -a settle -d 'Write a scenario that runs until its machine is quiet'
complete -c cmwq -n __cmwq_wants_command -a draw -d "Draw a scenario's run"
complete -c cmwq -n __cmwq_wants_command -a why -d 'Print what a work item or a flush waits for'
complete -c cmwq -n __cmwq_wants_command -a explore -d 'Search all interleavings of the callers for one that breaks a rule'
complete -c cmwq -n __cmwq_wants_command -a times -d 'Print how long each request waited and ran'
complete -c cmwq -n __cmwq_wants_command -a trace -d 'Write a run for tools that show traces'
complete -c cmwq -n __cmwq_wants_command -a list -d "Write a scenario's listing"
complete -c cmwq -n __cmwq_wants_command -a asm -d 'Make the image of a scenario'
complete -c cmwq -n __cmwq_wants_command -a show -d "Write the listing of an image's scenario"
complete -c cmwq -n __cmwq_wants_command -a debug -d 'Step through a run, forward and back'
complete -c cmwq -n __cmwq_wants_command -a play -d 'Run the callers as threads'
complete -c cmwq -n __cmwq_wants_command -a check -d "Print the first fault of each scenario's text"
complete -c cmwq -n __cmwq_wants_command -a help -d 'Print the commands, or the help of one command'
complete -c cmwq -n "__cmwq_is help" -f
complete -c cmwq -n "__cmwq_is help; and __cmwq_wants_command" -a scenario -d 'Print what a scenario may contain'
complete -c cmwq -n "__cmwq_is run settle draw why explore times trace list debug play check" -f
complete -c cmwq -n "__cmwq_is run settle draw why explore times trace list asm debug play check; and __cmwq_wants_file" -k -xa "(__fish_complete_suffix .cmwq)"
complete -c cmwq -n "__cmwq_is why; and not __cmwq_wants_file" -k -xa "(__cmwq_names work)" -d work
complete -c cmwq -n "__cmwq_is run draw why debug" -l settle -d 'Continue until the machine is quiet'
complete -c cmwq -n "__cmwq_is run" -l tell -d 'Also print instructions, and changes without an event'
complete -c cmwq -n "__cmwq_is run" -l strict -d 'End with status 1 if an instruction was refused'
complete -c cmwq -n "__cmwq_is draw" -l svg -d 'Write an SVG picture'
complete -c cmwq -n "__cmwq_is draw" -l from -x -d 'The first tick'
complete -c cmwq -n "__cmwq_is draw" -l to -x -d 'The tick before which to end'
complete -c cmwq -n "__cmwq_is draw" -l fold -d 'Fold gaps without a change'
complete -c cmwq -n "__cmwq_is draw" -l works -xa "(__cmwq_work_list)" -d 'The work items to draw'
complete -c cmwq -n "__cmwq_is draw" -l scale -x -d 'Pixels per tick'
complete -c cmwq -n "__cmwq_is draw" -l id -x -d "The picture's name in a page"
complete -c cmwq -n "__cmwq_is why" -l flush -x -d 'A flush, instead of a work item'
complete -c cmwq -n "__cmwq_is why" -l at -x -d 'Look only at this position'
complete -c cmwq -n "__cmwq_is why" -l every -d 'Look at every position'
complete -c cmwq -n "__cmwq_is why" -l time -x -d 'Look only at this tick'
complete -c cmwq -n "__cmwq_is explore" -l after -xa "(__cmwq_names actor)" -d 'The rule counts only when this actor has ended'
complete -c cmwq -n "__cmwq_is explore" -l never -xa "(__cmwq_names work)" -d 'This work item must never run, or two at the same time'
complete -c cmwq -n "__cmwq_is explore" -l stuck -d 'Some actor must always be able to continue'
complete -c cmwq -n "__cmwq_is explore" -l before -xa "(__cmwq_names actor)" -d 'This actor ends before the next begins'
complete -c cmwq -n "__cmwq_is explore" -l limit -x -d 'How many states are looked at'
complete -c cmwq -n "__cmwq_is times" -l json -d 'Write each line as a JSON object'
complete -c cmwq -n "__cmwq_is times" -l whom -d 'Also print for whom work items waited'
complete -c cmwq -n "__cmwq_is times" -l sweep -xa "(__cmwq_names queue)" -d 'Run once for each of these values of max_active'
complete -c cmwq -n "__cmwq_is trace" -l json -d 'Write slices for Perfetto and chrome://tracing'
complete -c cmwq -n "__cmwq_is trace" -l lines -d 'Write one JSON object per event'
complete -c cmwq -n "__cmwq_is trace" -l text -d "Write events as a kernel's trace shows them"
complete -c cmwq -n "__cmwq_is trace" -l dat -r -d 'Make a file for trace-cmd and KernelShark'
complete -c cmwq -n "__cmwq_is play" -l capacity -x -d 'How many instructions the machine accepts'
complete -c cmwq -n __cmwq_wants_command -s V -l version -d 'Print version'
complete -c cmwq -l explain -d 'Say what can be done about a fault'
complete -c cmwq -s h -l help -d 'Print help'
