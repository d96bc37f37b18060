# Completions of relay for bash: commands, then the options of the command, and names of files.
_relay() {
    local commands='words draw read ledger plan print give ticket take left audit scan deliver forget export import held copy world explain version'
    local words word=${COMP_WORDS[COMP_CWORD]}
    case ${COMP_WORDS[1]} in
    words) words='--help --scheme --side' ;;
    draw) words='--help --plain --scheme --side' ;;
    read) words='--help' ;;
    ledger) words='--file --first --help --last --number' ;;
    plan) words='--help --scheme' ;;
    print) words='--file --help --labels --number --scheme --side' ;;
    give) words='--count --file --first --help --last --number --to' ;;
    ticket) words='--help --ticket' ;;
    take) words='--file --help --number --ticket' ;;
    left) words='--file --help' ;;
    audit) words='--help' ;;
    scan) words='--capacity --file --help' ;;
    deliver) words='--all --file --forget --help --id --to' ;;
    forget) words='--file --help --id' ;;
    export) words='--all --file --help --id --to' ;;
    import) words='--capacity --file --help' ;;
    held) words='--file --help --id --long' ;;
    copy) words='--file --help --id --page --scheme --side' ;;
    world) words='--help' ;;
    explain) words='--help' ;;
    version) words='--help' ;;
    help) words=$commands ;;
    esac
    [ "$COMP_CWORD" = 1 ] && words="$commands help --help --version"
    mapfile -t COMPREPLY < <(compgen -W "$words" -- "$word")
}
complete -o default -F _relay relay
