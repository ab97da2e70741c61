# Completes the words of ./hard_disks in bash, once this file was read: source tools/completion/hard_disks.bash
_hard_disks() {
    local word="${COMP_WORDS[COMP_CWORD]}" before="${COMP_WORDS[COMP_CWORD - 1]}" words=''
    case "$before" in
        --mode) words='run plain check load cut audit' ;;
        --format) words='lines summary states sums' ;;
        --burst) words='locks table' ;;
        --regions | --workers | --turns | --steps | --disks | --number | --at | --margin) ;;
        *) words='--mode --format --regions --workers --turns --steps --burst --disks --number --at --margin --help --version' ;;
    esac
    mapfile -t COMPREPLY < <(compgen -W "$words" -- "$word")
}
complete -o default -F _hard_disks hard_disks
