# Completion of pgv for fish: install it as share/fish/vendor_completions.d/pgv.fish.

# The files among the words before the cursor, behind the command; an option takes the word behind it, where it has no `=`.
function __pgv_files_before
    set -l words (commandline -opc)[2..-1]
    set -l count 0
    set -l skip 0
    set -l past 0
    for word in $words
        if test $skip = 1
            set skip 0
        else if test $past = 0 -a "$word" = --
            set past 1
        else if test $past = 0; and string match -qr '^--[^=]*$' -- $word
            set skip 1
        else if test $past = 1; or not string match -qr '^--' -- $word
            set count (math $count + 1)
        end
    end
    # the first word is the command
    math $count - 1
end

# Whether the command is one of the words behind the first, which is how many files stand before the cursor; `any` is any number.
function __pgv_at
    set -l words (commandline -opc)
    test (count $words) -ge 2; or return 1
    contains -- $words[2] $argv[2..-1]; or return 1
    test $argv[1] = any; or test (__pgv_files_before) = $argv[1]
end

function __pgv_needs_command
    test (count (commandline -opc)) = 1
end

complete -c pgv -f
for line in 'bare	run an image on a bare machine' \
    'check	ask whether a monitor may run a machine' \
    'verify	check a certificate' \
    'replay	write the states of a certificate' \
    'run	run images as guests of a monitor' \
    'print	write a description in one layout' \
    'gen	make a large input of a number, and classify it' \
    'migrate	make a certificate anew, shorter' \
    'hcheck	check, by the condition of a hybrid monitor' \
    'hybrid	run, under a hybrid monitor' \
    'nest	run an image under several monitors' \
    'asm	assemble a source' \
    'disasm	write a source of an image' \
    'save	run a guest, and save it' \
    'resume	let a saved guest go on'
    set -l parts (string split \t -- $line)
    complete -c pgv -n __pgv_needs_command -a $parts[1] -d $parts[2]
end

set -l with_cert verify replay run migrate hybrid nest save resume
complete -c pgv -n "__pgv_at 0 bare check print hcheck asm disasm $with_cert" -k -a '(__fish_complete_suffix .isa)'
complete -c pgv -n "__pgv_at 1 $with_cert" -k -a '(__fish_complete_suffix .cert)'
complete -c pgv -n '__pgv_at 1 bare disasm' -k -a '(__fish_complete_suffix .img)'
complete -c pgv -n '__pgv_at 1 asm' -k -a '(__fish_complete_suffix .s)'
complete -c pgv -n '__pgv_at 2 nest save' -k -a '(__fish_complete_suffix .img)'
complete -c pgv -n '__pgv_at 2 resume' -k -a '(__fish_complete_suffix .saved)'
complete -c pgv -n '__pgv_at 2 migrate' -k -a '(__fish_complete_suffix .cert)'
complete -c pgv -n '__pgv_at 3 save' -k -a '(__fish_complete_suffix .saved)'
for at in 2 3 4 5 6 7 8 9
    complete -c pgv -n "__pgv_at $at run hybrid" -k -a '(__fish_complete_suffix .img)'
end

complete -c pgv -n '__pgv_at any check hcheck gen' -l cert -r -k -a '(__fish_complete_suffix .cert)' -d 'where the certificate is saved'
complete -c pgv -n '__pgv_at any check hcheck' -l budget -x -d 'clauses of a question, 1 to 1000000'
complete -c pgv -n '__pgv_at any bare run hybrid nest asm disasm save' -l grant -x -d 'cells, 2 to 1048575'
complete -c pgv -n '__pgv_at any bare run hybrid nest save resume' -l steps -x -d 'steps, 0 to 1000000'
complete -c pgv -n '__pgv_at any run hybrid' -l slice -x -d 'turns of a slice, 1 to 1000000'
complete -c pgv -n '__pgv_at any nest' -l depth -x -a '1 2 3 4' -d 'monitors, 1 to 4'
complete -c pgv -n '__pgv_at any resume' -l skip -x -d 'cells before the guest, 0 to 1048575'
