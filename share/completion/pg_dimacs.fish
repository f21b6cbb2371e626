# Completion of pg_dimacs for fish: install it as share/fish/vendor_completions.d/pg_dimacs.fish.

function __pg_dimacs_instrs
    sed -n 's/^[[:space:]]*instr[[:space:]]\{1,\}\([A-Za-z_][A-Za-z0-9_]*\).*/\1/p' (commandline -opc)[2] 2>/dev/null
end

function __pg_dimacs_at
    test (count (commandline -opc)) = $argv[1]
end

complete -c pg_dimacs -f
complete -c pg_dimacs -n '__pg_dimacs_at 1' -k -a '(__fish_complete_suffix .isa)'
complete -c pg_dimacs -n '__pg_dimacs_at 2' -a '(__pg_dimacs_instrs)' -d instruction
complete -c pg_dimacs -n '__pg_dimacs_at 3' -a 'privileged control mode location bound ucontrol ulocation ubound' -d kind
