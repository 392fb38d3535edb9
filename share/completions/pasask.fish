# Completion of pasask for fish.

function __pasask_is_first
    test (count (commandline -opc)) -eq 1
end

complete -c pasask -l input -r -F -d 'The file that the program reads'
complete -c pasask -l budget -x -d 'The steps that its run may take, from 1 to 4000000'
complete -c pasask -l load -r -F -d 'Goes on with a session that was saved'
complete -c pasask -n __pasask_is_first -s h -l help -d 'Prints what can be typed'
complete -c pasask -n __pasask_is_first -l version -d 'Prints the version'
complete -c pasask -n __pasask_is_first -a 'make:(seq 14)' -d 'A made program'
