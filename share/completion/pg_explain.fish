# Completion of pg_explain for fish: install it as share/fish/vendor_completions.d/pg_explain.fish.

function __pg_explain_instrs
    sed -n 's/^[[:space:]]*instr[[:space:]]\{1,\}\([A-Za-z_][A-Za-z0-9_]*\).*/\1/p' (commandline -opc)[2] 2>/dev/null
end

# Whether so many words stand before the cursor, the program's name first, and no option among them.
function __pg_explain_at
    set -l words (commandline -opc)
    test (count $words) = $argv[1]; and not string match -q -- '-*' $words[2..-1]
end

complete -c pg_explain -f
complete -c pg_explain -n '__pg_explain_at 1' -k -a '(__fish_complete_suffix .isa)'
complete -c pg_explain -n '__pg_explain_at 2' -k -a '(__fish_complete_suffix .cert)'
complete -c pg_explain -n '__pg_explain_at 3' -a '(__pg_explain_instrs)' -d instruction
complete -c pg_explain -n '__pg_explain_at 4' -a 'privileged control mode location bound ucontrol ulocation ubound' -d kind
complete -c pg_explain -n 'test (count (commandline -opc)) -ge 3' -l budget -x -d 'clauses of a question, 1 to 1000000'
complete -c pg_explain -n 'test (count (commandline -opc)) -ge 3' -l mend -r -k -a '(__fish_complete_suffix .isa)' \
    -d 'where the mended description is saved'
complete -c pg_explain -n 'test (count (commandline -opc)) -ge 3' -l readable \
    -d 'states with each operand in a cell of its own, too'
complete -c pg_explain -n '__pg_explain_at 3' -a '--json' -d 'the machine and all findings as JSON'
