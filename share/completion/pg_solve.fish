# Completion of pg_solve for fish: install it as share/fish/vendor_completions.d/pg_solve.fish.

# Whether a file stands before the cursor, and no more than a budget behind it.
function __pg_solve_behind_file
    set -l words (commandline -opc)
    contains -- (count $words) 2 3; and not contains -- --check $words
end

complete -c pg_solve -f
complete -c pg_solve -n 'test (count (commandline -opc)) = 1' -k -a '(__fish_complete_suffix .cnf)'
complete -c pg_solve -n __pg_solve_behind_file -l check -d 'check the log of the steps'
