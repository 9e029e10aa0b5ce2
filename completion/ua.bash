# Completion of the words of `ua` for bash; written by tools/write_pages.py.
_ua() {
    local word=${COMP_WORDS[COMP_CWORD]} before=${COMP_WORDS[COMP_CWORD - 1]} words= files= place=0 at
    COMPREPLY=()
    case $before in
        --policy) words='anonymous auto' ;;
        --connections) words='all' ;;
        --answers | --at-once | --attribute | --count | --cut | --every | --kept | --largest | --path | --range | --record | --url) return ;;
    esac
    for ((at = 2; at < COMP_CWORD; at++)); do
        case ${COMP_WORDS[at]} in
        --answers | --at-once | --attribute | --connections | --count | --cut | --every | --kept | --largest | --path | --policy | --range | --record | --url) at=$((at + 1)) ;;
        -*) ;;
        *) place=$((place + 1)) ;;
        esac
    done
    if [ -z "$words" ] && [ "$COMP_CWORD" = 1 ]; then
        words='dissect judge serve endpoints read write ask loop version help --help'
    elif [ -z "$words" ]; then
        case ${COMP_WORDS[1]} in
        dissect) words='--help --hex --server --fields --largest --names --plain --strict --why'; files='0' ;;
        judge) words='--help --fields --names --plain --strict --why'; files='0 1' ;;
        serve) words='--help --connections --at-once --answers --kept --requests --plain --standard --live --writes --why'; files='0' ;;
        endpoints) words='--help --policies --json --path --url --record --why' ;;
        read) words='--help --attribute --range --names --times --json --plain --policy --path --url --record --strict --why' ;;
        write) words='--help --names --json --plain --policy --path --url --record --strict --why' ;;
        ask) words='--help --every --count --names --times --json --plain --policy --path --url --record --strict --why'; files='1' ;;
        loop) words='--help --cut --tcp --names --plain --strict --why'; files='0 1' ;;
        version) words='--help' ;;
        help) words='dissect judge serve endpoints read write ask loop version help' ;;
        esac
    fi
    if [[ " $files " == *" $place "* && $word != -* ]]; then
        compopt -o filenames 2>/dev/null
        mapfile -t COMPREPLY < <(compgen -f -- "$word")
    else
        mapfile -t COMPREPLY < <(compgen -W "$words" -- "$word")
    fi
}
complete -F _ua ua
