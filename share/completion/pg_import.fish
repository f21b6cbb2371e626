# Completion of pg_import for fish: install it as share/fish/vendor_completions.d/pg_import.fish.

function __pg_import_instrs
    sed -n 's/^[[:space:]]*instr[[:space:]]\{1,\}\([A-Za-z_][A-Za-z0-9_]*\).*/\1/p' (commandline -opc)[2] 2>/dev/null
end

# Whether so many words stand before the cursor, the program's name first, and no option among them.
function __pg_import_at
    set -l words (commandline -opc)
    test (count $words) = $argv[1]; and not string match -q -- '-*' $words[2..-1]
end

complete -c pg_import -f
complete -c pg_import -n '__pg_import_at 1' -k -a '(__fish_complete_suffix .isa)'
complete -c pg_import -n '__pg_import_at 2' -k -a '(__fish_complete_suffix .cert)'
complete -c pg_import -n '__pg_import_at 3' -a '(__pg_import_instrs)' -d instruction
complete -c pg_import -n '__pg_import_at 4' -a 'privileged control mode location bound ucontrol ulocation ubound' -d kind
complete -c pg_import -n '__pg_import_at 5' -F
complete -c pg_import -n '__pg_import_at 6' -k -a '(__fish_complete_suffix .cert)'
