# Completion of pg_trace for fish: install it as share/fish/vendor_completions.d/pg_trace.fish.

# Whether so many files stand before the cursor; an option with a value takes the word behind it.
function __pg_trace_at
    set -l count 0
    set -l skip 0
    for word in (commandline -opc)[2..-1]
        if test $skip = 1
            set skip 0
        else if contains -- $word --grant --steps --until --cert
            set skip 1
        else if not string match -q -- '--*' $word
            set count (math $count + 1)
        end
    end
    test $count = $argv[1]
end

complete -c pg_trace -f
complete -c pg_trace -n '__pg_trace_at 0' -k -a '(__fish_complete_suffix .isa)'
complete -c pg_trace -n '__pg_trace_at 1' -k -a '(__fish_complete_suffix .img)'
complete -c pg_trace -l grant -x -d 'cells, 2 to 1048575'
complete -c pg_trace -l steps -x -d 'steps, 0 to 1000000'
complete -c pg_trace -l until -x -a 'still trap P=' -d 'what ends the run before'
complete -c pg_trace -l cert -r -k -a '(__fish_complete_suffix .cert)' -d 'certificate, by which steps are direct or emulated'
complete -c pg_trace -l only-traps -d 'only steps that trap'
complete -c pg_trace -l counts -d 'only the counts'
complete -c pg_trace -l json -d 'the run as JSON'
complete -c pg_trace -l vcd -d 'the run as a value change dump'
