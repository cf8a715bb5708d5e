# Completions of registry_cli for bash.

_registry_cli_options() {
    case $1 in
        init) echo --base --db --help ;;
        serve) echo --port --connections --replies --trail --admin --db --help ;;
        pause) echo --at --help ;;
        export | audit) echo --db --help ;;
        pipe) echo --db --memory --base --setup --help ;;
        user-add) echo --name --db --at --help ;;
        token-add) echo --endpoints --patterns --random --digest --db --at --help ;;
        line | explain) echo --help ;;
        help) ;;
        *) echo --db --at --help ;;
    esac
}

# The last word of a list that commas separate is completed; those before it stay.
_registry_cli_endpoints() {
    local current=$1 before=
    case $current in
        *,*)
            before=${current%,*},
            current=${current##*,}
            ;;
    esac
    compgen -P "$before" -W 'publish-new publish-update yank change-owners' -- "$current"
}

_registry_cli() {
    local commands='init serve pause pipe export audit line user-add token-add user-disable user-enable
        token-revoke reserve unreserve owner-add crate-restrict crate-open reader-add reader-remove
        users tokens crates access explain help'
    local current=${COMP_WORDS[COMP_CWORD]} before=${COMP_WORDS[COMP_CWORD - 1]}
    local command=${COMP_WORDS[1]}
    COMPREPLY=()
    if [ "$COMP_CWORD" -eq 1 ]; then
        mapfile -t COMPREPLY < <(compgen -W "$commands --help --version" -- "$current")
        return
    fi
    case $before in
        --db | --at | --admin | --setup | --random)
            compopt -o filenames 2> /dev/null
            mapfile -t COMPREPLY < <(compgen -f -- "$current")
            return
            ;;
        --endpoints)
            mapfile -t COMPREPLY < <(_registry_cli_endpoints "$current")
            return
            ;;
        --base | --port | --connections | --replies | --name | --patterns | --digest) return ;;
    esac
    case $command/$current in
        */-*)
            mapfile -t COMPREPLY < <(compgen -W "$(_registry_cli_options "$command")" -- "$current")
            ;;
        export/*)
            compopt -o filenames 2> /dev/null
            mapfile -t COMPREPLY < <(compgen -d -- "$current")
            ;;
        help/*) mapfile -t COMPREPLY < <(compgen -W "$commands" -- "$current") ;;
    esac
}

complete -F _registry_cli registry_cli
