# Completes the words of the command sheet, in fish.

complete -c sheet -f
complete -c sheet -n __fish_use_subcommand -a look -d 'Show whether the workbook is locked, and how'
complete -c sheet -n __fish_use_subcommand -a same-lock -d 'Show whether two workbooks have the same lock'
complete -c sheet -n __fish_use_subcommand -a list -d 'List its records'
complete -c sheet -n __fish_use_subcommand -a directory -d 'List its sheets and where they start'
complete -c sheet -n __fish_use_subcommand -a forecast -d 'Show what opening it will take'
complete -c sheet -n __fish_use_subcommand -a open -d 'Open it with its password'
complete -c sheet -n __fish_use_subcommand -a seal -d 'Seal a plain stream under a new password'
complete -c sheet -n __fish_use_subcommand -a refusals -d 'List what each number of a refusal means'
complete -c sheet -n __fish_use_subcommand -s h -l help -d 'Print the help'
complete -c sheet -n __fish_use_subcommand -s V -l version -d 'Print the version'

complete -c sheet -n '__fish_seen_subcommand_from look same-lock list directory forecast open seal' -F
complete -c sheet -n '__fish_seen_subcommand_from look same-lock' -s q -l quiet -d 'Print nothing, and answer by the exit status'
complete -c sheet -n '__fish_seen_subcommand_from open seal' -s o -l output -r -F -d 'Write to this file'
complete -c sheet -n '__fish_seen_subcommand_from open seal' -l password-file -r -F -d 'Take the password from this file'
complete -c sheet -n '__fish_seen_subcommand_from seal' -l lock -x -a 'cryptoapi office97 xor' -d 'Use this lock'
complete -c sheet -n '__fish_seen_subcommand_from seal' -l key-size -x -a '40 48 56 64 72 80 88 96 104 112 120 128' -d 'Use a key of so many bits, with cryptoapi'
complete -c sheet -n '__fish_seen_subcommand_from seal' -l major -x -a '2 3 4' -d 'Use this version, with cryptoapi'
