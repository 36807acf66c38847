# Completion of msi for bash: `source` this file. (ci/completions makes it.)
_msi() {
    local word=${COMP_WORDS[COMP_CWORD]} before=${COMP_WORDS[COMP_CWORD - 1]} command=${COMP_WORDS[1]} words=
    compopt +o default 2>/dev/null
    case $before in
        --protocol) words='msi msi+e' ;;
        --until) words='broke stuck any' ;;
        --tables) compopt -o default; return ;;
        '<' | '>') compopt -o default; return ;;
    esac
    if [ -z "$words" ] && [ "$COMP_CWORD" = 1 ]; then
        words='play trial batch replay show chart move floor tables certify model check help --help --version'
    elif [ -z "$words" ]; then
        case $command in
            play) words='--caches --blocks --protocol --tables --recording --explain --help' ;;
            trial) words='--caches --blocks --protocol --tables --seed --number --limit --explain --help' ;;
            batch) words='--caches --blocks --protocol --tables --seed --trials --limit --workers --until --progress --json --explain --help' ;;
            replay) words='--json --explain --help' ;;
            show) words='--block --from --steps --tsv --json --explain --help' ;;
            chart) words='--block --from --steps --explain --help' ;;
            move) words='--explain --help' ;;
            floor) words='--caches --blocks --protocol --tables --seats --turns --seed --recording --explain --help' ;;
            tables) words='--protocol --tables --changes --explain --help' ;;
            certify) words='--protocol --tables --json --pairs --explain --help' ;;
            model) words='--caches --protocol --tables --explain --help' ;;
            check) words='--caches --blocks --protocol --tables --explain --help' ;;
            help) words='play trial batch replay show chart move floor tables certify model check' ;;
        esac
    fi
    mapfile -t COMPREPLY < <(compgen -W "$words" -- "$word")
}
complete -F _msi msi ./msi
