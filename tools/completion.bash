# Completes the words of ram_drive, ram-map, ram-ctl, nbdkit-dvdram-plugin, dvdram-iscsi and dvdram-nbd in bash.

_ram_drive() {
    case $COMP_CWORD in
        1) mapfile -t COMPREPLY < <(compgen -W 'run groups mirror generate audit check nbd --help --version' -- "$2") ;;
        2) [[ ${COMP_WORDS[1]} == --* ]] || mapfile -t COMPREPLY < <(compgen -f -- "$2") ;;
        *)
            case ${COMP_WORDS[1]} in
                nbd) mapfile -t COMPREPLY < <(compgen -W 'fail wear cut' -- "$2") ;;
                mirror) ((COMP_CWORD > 3)) || mapfile -t COMPREPLY < <(compgen -f -- "$2") ;;
            esac
            ;;
    esac
}

_ram_map() {
    local name=$3
    [[ $name != '=' ]] || name=${COMP_WORDS[COMP_CWORD - 2]}
    case $name in
        --output) mapfile -t COMPREPLY < <(compgen -W 'human json ddrescue term svg' -- "${2#=}") ;;
        --layout) mapfile -t COMPREPLY < <(compgen -W 'run groups' -- "${2#=}") ;;
        *) mapfile -t COMPREPLY < <(compgen -f -- "$2"; compgen -W '--output --layout' -- "$2") ;;
    esac
}

_ram_ctl() {
    local lines='fail wear cut power scrub cdb stats list disarm a b resync lead'
    case $COMP_CWORD in
        1) mapfile -t COMPREPLY < <(compgen -f -- "$2") ;;
        *) mapfile -t COMPREPLY < <(compgen -W "$lines" -- "$2") ;;
    esac
}

_nbdkit_dvdram_plugin() {
    _dvdram_parameters "$2" "$3" 'image image2 layout press format force program control poweroff'
}

_dvdram_nbd() {
    mapfile -t COMPREPLY < <(compgen -f -- "$2"; compgen -W '--socket fail wear cut' -- "$2")
}

_dvdram_iscsi() {
    _dvdram_parameters "$2" "$3" 'image layout press format force program control poweroff port log'
}

# Completes a parameter: the word so far, the word before it, and the names that there are.
_dvdram_parameters() {
    local name=$2
    [[ $1 != '=' ]] || name=${COMP_WORDS[COMP_CWORD - 1]}
    [[ $name != '=' ]] || name=${COMP_WORDS[COMP_CWORD - 2]}
    case $name in
        layout) mapfile -t COMPREPLY < <(compgen -W 'run groups' -- "${1#=}") ;;
        format | force) mapfile -t COMPREPLY < <(compgen -W 'yes no' -- "${1#=}") ;;
        poweroff) mapfile -t COMPREPLY < <(compgen -W 'stay again exit' -- "${1#=}") ;;
        image | image2 | program | control | log) mapfile -t COMPREPLY < <(compgen -f -- "${1#=}") ;;
        *) mapfile -t COMPREPLY < <(compgen -S= -W "$3" -- "$1"); compopt -o nospace ;;
    esac
}

complete -F _ram_drive ram_drive
complete -F _ram_map ram-map
complete -F _ram_ctl ram-ctl
complete -F _nbdkit_dvdram_plugin nbdkit-dvdram-plugin
complete -F _dvdram_iscsi dvdram-iscsi
complete -F _dvdram_nbd dvdram-nbd
