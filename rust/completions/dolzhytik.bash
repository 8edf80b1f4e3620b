# Completion of dolzhytik for bash. Source this file, or copy it to the folder of bash-completion as
# `dolzhytik`.
_dolzhytik() {
    local word=${COMP_WORDS[COMP_CWORD]} before=${COMP_WORDS[COMP_CWORD - 1]} words=
    local commands='outline dump size strip shorten build completions help'
    local sections='custom type import function table memory global export start element code data tag name'
    case ${COMP_WORDS[1]} in
    outline) words='--why --strict --json --color -h --help' ;;
    dump) words='--section --id -r --relocations --json --color -h --help' ;;
    size) words='--why --functions --fail-above --json --color -h --help' ;;
    strip) words='--all --debug --keep -o --output --force -h --help' ;;
    shorten) words='-o --output --dry-run --json --drop-offsets --keep-code --build-id --force -h --help' ;;
    build) words='-o --output --force -h --help' ;;
    completions) words='-h --help' ;;
    help) words='--man -h --help' ;;
    esac
    COMPREPLY=()
    if [ "$COMP_CWORD" = 1 ]; then
        words="$commands -h --help -V --version"
    elif [ "$before" = help ] && [ "$COMP_CWORD" = 2 ]; then
        words="$words $commands"
    elif [ "$before" = completions ] && [ "$COMP_CWORD" = 2 ]; then
        words="$words bash zsh fish powershell"
    elif [ "$before" = --section ]; then
        words=$sections
    elif [ "$before" = --id ]; then
        words='0 1 2 3 4 5 6 7 8 9 10 11 12 13'
    elif [ "$before" = --build-id ]; then
        words='keep drop'
    elif [ "$before" = --color ]; then
        words='auto always never'
    elif [ "$before" = -o ] || [ "$before" = --output ] || [[ $word != -* ]]; then
        # Where there are no words, bash completes names of files.
        return
    fi
    COMPREPLY=($(compgen -W "$words" -- "$word"))
}
complete -o bashdefault -o default -F _dolzhytik dolzhytik
