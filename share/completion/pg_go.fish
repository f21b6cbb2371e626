# Completion of pg_go for fish: install it as share/fish/vendor_completions.d/pg_go.fish.

# Whether so many files stand before the cursor; an option with a value takes the word behind it.
function __pg_go_at
    set -l count 0
    set -l skip 0
    for word in (commandline -opc)[2..-1]
        if test $skip = 1
            set skip 0
        else if contains -- $word --grant --steps --slice --show --text
            set skip 1
        else if not string match -q -- '--*' $word
            set count (math $count + 1)
        end
    end
    test $count = $argv[1]
end

# Whether a bare machine is asked for, which has no certificate.
function __pg_go_bare
    contains -- --bare (commandline -opc)
end

complete -c pg_go -f
complete -c pg_go -n '__pg_go_at 0' -k -a '(__fish_complete_suffix .isa)'
complete -c pg_go -n '__pg_go_at 1; and not __pg_go_bare' -k -a '(__fish_complete_suffix .cert)'
complete -c pg_go -n '__pg_go_at 1; and __pg_go_bare' -k -a '(__fish_complete_suffix .img)'
for at in (seq 2 9)
    complete -c pg_go -n "__pg_go_at $at; and not __pg_go_bare" -k -a '(__fish_complete_suffix .img)'
end
complete -c pg_go -l bare -d 'one image on a bare machine, without a certificate'
complete -c pg_go -l grant -x -d 'cells of each guest, 2 to 1048575'
complete -c pg_go -l steps -x -d 'steps of each guest at most, 0 to 144115188075855872'
complete -c pg_go -l slice -x -d 'steps in turn, 1 to 1000000; 1000 where it is not said'
complete -c pg_go -l show -x -d 'words of cells A..B in place of the state'
complete -c pg_go -l text -x -d 'bytes of cells A..B or A..B:BITS in place of the state'
