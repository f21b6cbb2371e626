# Completion of pg_export for fish: install it as share/fish/vendor_completions.d/pg_export.fish.

function __pg_export_instrs
    sed -n 's/^[[:space:]]*instr[[:space:]]\{1,\}\([A-Za-z_][A-Za-z0-9_]*\).*/\1/p' (commandline -opc)[2] 2>/dev/null
end

# Whether so many words stand before the cursor, the program's name first, and no option among them.
function __pg_export_at
    set -l words (commandline -opc)
    test (count $words) = $argv[1]; and not string match -q -- '-*' $words[2..-1]
end

complete -c pg_export -f
complete -c pg_export -n '__pg_export_at 1' -k -a '(__fish_complete_suffix .isa)'
complete -c pg_export -n '__pg_export_at 2' -k -a '(__fish_complete_suffix .cert)'
complete -c pg_export -n '__pg_export_at 3' -a '(__pg_export_instrs)' -d instruction
complete -c pg_export -n '__pg_export_at 4' -a 'privileged control mode location bound ucontrol ulocation ubound' -d kind
complete -c pg_export -n 'test (count (commandline -opc)) -ge 5' -l cnf -r -k -a '(__fish_complete_suffix .cnf)' \
    -d 'where the clauses are saved'
