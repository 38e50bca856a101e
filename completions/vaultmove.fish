# Completion of vaultmove's commands, options, folders and files for fish. Written by scripts/words.
complete -c vaultmove -f
set -l commands cat decrypt-file demo fsck init ls migrate mkdir passwd put repair resume retire
set -l none "not __fish_seen_subcommand_from $commands"
complete -c vaultmove -n $none -a cat -d 'write the content of a file of a vault'
complete -c vaultmove -n $none -a decrypt-file -d 'decrypt a content file of gocryptfs from the input'
complete -c vaultmove -n $none -a demo -d 'make a tree in memory and move it there and back'
complete -c vaultmove -n $none -a fsck -d 'check the structure and the contents of a vault'
complete -c vaultmove -n $none -a init -d 'make a vault'
complete -c vaultmove -n $none -a ls -d 'list a directory of a vault'
complete -c vaultmove -n $none -a migrate -d 'move the tree of one vault into another'
complete -c vaultmove -n $none -a mkdir -d 'make a directory in a vault'
complete -c vaultmove -n $none -a passwd -d 'change the passphrase of a vault'
complete -c vaultmove -n $none -a put -d 'store the input as a file of a vault'
complete -c vaultmove -n $none -a repair -d 'move strays out of a vault'
complete -c vaultmove -n $none -a resume -d 'go on with a migration that was stopped'
complete -c vaultmove -n $none -a retire -d 'remove the source of a finished migration'
# A folder without the slash at its end, with which it would be no path of the program.
function __vaultmove_folders
    __fish_complete_directories | string replace -r '/(\t|$)' '$1'
end
complete -c vaultmove -n '__fish_seen_subcommand_from cat fsck init ls mkdir passwd put repair' -l pass -r -F -d 'file with the passphrase'
complete -c vaultmove -n '__fish_seen_subcommand_from init mkdir passwd put' -l work -x -a '(__vaultmove_folders)' -d 'work folder'
complete -c vaultmove -n '__fish_seen_subcommand_from passwd' -l new-pass -r -F -d 'file with the new passphrase'
complete -c vaultmove -n '__fish_seen_subcommand_from migrate resume retire' -l from-pass -r -F -d 'file with the passphrase of the source'
complete -c vaultmove -n '__fish_seen_subcommand_from migrate resume retire' -l to-pass -r -F -d 'file with the passphrase of the target'
complete -c vaultmove -n '__fish_seen_subcommand_from migrate' -l nfc -d 'bring names to normalization form C'
complete -c vaultmove -n '__fish_seen_subcommand_from init' -a 'gocryptfs cryptomator cryptomator-ctrmac'
complete -c vaultmove -n '__fish_seen_subcommand_from cat fsck init ls migrate mkdir passwd put repair resume retire' -a '(__vaultmove_folders)'
