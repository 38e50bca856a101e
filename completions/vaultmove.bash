# Completion of vaultmove's commands, options, folders and files for bash. Written by scripts/words.
# Folders without the slash at their ends, with which they would be no paths of the program.
_vaultmove_folders() {
    local folder
    mapfile -t COMPREPLY < <(compgen -d -- "$1" | while IFS= read -r folder; do printf '%q\n' "$folder"; done)
}
_vaultmove() {
    local word=${COMP_WORDS[COMP_CWORD]} before=${COMP_WORDS[COMP_CWORD - 1]} command=${COMP_WORDS[1]} options=
    COMPREPLY=()
    if [ "$COMP_CWORD" = 1 ]; then
        mapfile -t COMPREPLY < <(compgen -W 'cat decrypt-file demo fsck init ls migrate mkdir passwd put repair resume retire' -- "$word")
        return
    fi
    case $command in
        cat) options='--pass' ;;
        fsck) options='--pass' ;;
        init) options='--pass --work' ;;
        ls) options='--pass' ;;
        migrate) options='--from-pass --to-pass --nfc' ;;
        mkdir) options='--pass --work' ;;
        passwd) options='--pass --new-pass --work' ;;
        put) options='--pass --work' ;;
        repair) options='--pass' ;;
        resume) options='--from-pass --to-pass' ;;
        retire) options='--from-pass --to-pass' ;;
    esac
    # A value behind `=`, which readline parts from its option.
    if [ "$word" = = ]; then word= before=${COMP_WORDS[COMP_CWORD - 1]}; fi
    if [ "$before" = = ]; then before=${COMP_WORDS[COMP_CWORD - 2]}; fi
    case $before in
        --pass | --new-pass | --from-pass | --to-pass)
            compopt -o filenames
            mapfile -t COMPREPLY < <(compgen -f -- "$word")
            return
            ;;
        --work)
            _vaultmove_folders "$word"
            return
            ;;
    esac
    if [[ $word == -* ]]; then
        mapfile -t COMPREPLY < <(compgen -W "$options" -- "$word")
        return
    fi
    case $command:$COMP_CWORD in
        init:2)
            mapfile -t COMPREPLY < <(compgen -W 'gocryptfs cryptomator cryptomator-ctrmac' -- "$word")
            return
            ;;
    esac
    case $command in
        cat | fsck | init | ls | migrate | mkdir | passwd | put | repair | resume | retire) _vaultmove_folders "$word" ;;
    esac
}
complete -F _vaultmove vaultmove
