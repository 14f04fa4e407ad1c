# Completion of component_manager and of the tools for bash. Load it with: source tools/completion.bash

# Offers words. A word of that name which is a folder too stays a word.
_component_words() {
    mapfile -t COMPREPLY < <(compgen -W "$1" -- "${COMP_WORDS[COMP_CWORD]}")
}

# Offers files, or folders with -d. bash ends a folder by a slash.
_component_files() {
    compopt -o filenames 2>/dev/null
    mapfile -t COMPREPLY < <(compgen "${1:--f}" -- "${COMP_WORDS[COMP_CWORD]}")
}

_component_words_of_program="check run generate serve audit environments storage prove"

_component_manager() {
    local before=${COMP_WORDS[COMP_CWORD - 1]} command=${COMP_WORDS[1]}
    COMPREPLY=()
    if [ "$COMP_CWORD" -eq 1 ]; then
        _component_words "$_component_words_of_program help --help --version --where"
        return
    fi
    case $before in
        --repo) _component_files -d && return ;;
        '<') _component_files && return ;;
        --root | --sessions | --workers) return ;;
    esac
    case $command in
        help) _component_words "$_component_words_of_program" ;;
        run) _component_words "--journal --repo --help" ;;
        environments | storage) _component_words "--repo --help" ;;
        check) _component_files ;;
        serve)
            [ "$COMP_CWORD" -eq 2 ] && _component_files || \
                _component_words "--root --repo --sessions --workers --help"
            ;;
        generate | prove | audit) ;;
        *) _component_files ;;
    esac
}

# The options of each tool, and which of them take a folder or a file; behind others with a value nothing is
# offered.
declare -A _component_options=(
    [realm]="--tree --timeline --routes --json --dot --mermaid --html --only --capability --at --partial"
    [explain]="--repo --root --number --help"
    [check-all]="--include --without --program --help"
    [merge]="--include --without --output --help"
    [doctor]="--builtin --add --capability --who-can --rights --between --reverse --policy --diff"
)

# Options of a tool where the word begins with a hyphen, files else.
_component_tool() {
    local tool=${1##*/} word=${COMP_WORDS[COMP_CWORD]} before=${COMP_WORDS[COMP_CWORD - 1]}
    tool=${tool#component_manager-}
    COMPREPLY=()
    case $before in
        --repo | --diff | --include) _component_files -d ;;
        --at | --number | --only | --root | --builtin | --add | --without | --capability | --reverse) ;;
        *)
            case $word in
                -*) _component_words "${_component_options[$tool]}" ;;
                *) _component_files ;;
            esac
            ;;
    esac
}

_component_commands="resolve start stop shutdown create destroy list open open-exposed route doctor show"
_component_commands+=" survey events exited quit"

# The socket, behind options that have a value, and then words of commands.
_component_session() {
    local before=${COMP_WORDS[COMP_CWORD - 1]} socket=1
    COMPREPLY=()
    while [[ ${COMP_WORDS[socket]} == --wait || ${COMP_WORDS[socket]} == --transcript ]]; do
        socket=$((socket + 2))
    done
    if [[ ${COMP_WORDS[COMP_CWORD]} == -* ]]; then
        _component_words "--wait --transcript --help"
    elif [ "$COMP_CWORD" -eq "$socket" ] || [ "$before" = --transcript ]; then
        _component_files
    elif [ "$before" != --wait ]; then
        _component_words "$_component_commands"
    fi
}

_component_options[realm]+=" --output --help"
_component_options[doctor]+=" --include --without --json --sarif --program --output --help"

complete -F _component_manager component_manager ./component_manager
complete -F _component_session tools/session ./tools/session component_manager-session
for _component_name in "${!_component_options[@]}"; do
    complete -F _component_tool "tools/$_component_name" "./tools/$_component_name" \
        "component_manager-$_component_name"
done
unset _component_name
