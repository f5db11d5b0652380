# Completion of dettrace, dettrace-run, dettrace-image and dettrace-report for bash.

# Candidates of a list of words, or of the names of files and folders.
_dettrace_words() {
    local IFS=$' \t\n'
    COMPREPLY=($(compgen -W "$1" -- "$2"))
}

_dettrace_names() {
    local IFS=$'\n'
    compopt -o filenames 2>/dev/null
    COMPREPLY=($(compgen "$1" -- "$2"))
}

# Whether `--` stands before the word that is completed: all behind it is for the program.
_dettrace_is_behind() {
    local at
    for ((at = 1; at < COMP_CWORD; at++)); do
        [[ ${COMP_WORDS[at]} == -- ]] && return 0
    done
    return 1
}

# The names in folder $1 that begin with $2.
_dettrace_names_in() {
    local IFS=$'\n'
    COMPREPLY=($(CDPATH= cd -- "$1" 2>/dev/null && compgen -f -- "$2"))
}

# The words before the one that is completed that are no options, nor values of the options in $1, behind word $2, one a
# line. What stands behind `=` is a value, or part of one.
_dettrace_operands() {
    local at
    for ((at = $2 + 1; at < COMP_CWORD; at++)); do
        if [[ " $1 " == *" ${COMP_WORDS[at]} "* ]]; then
            [[ ${COMP_WORDS[at + 1]} != = ]] || ((at++))
            ((at++))
        elif [[ ${COMP_WORDS[at]} == = ]]; then
            ((at++))
        elif [[ ${COMP_WORDS[at]} != -* ]]; then
            printf '%s\n' "${COMP_WORDS[at]}"
        fi
    done
}

# How many they are.
_dettrace_count() {
    local found
    mapfile -t found < <(_dettrace_operands "$1" "$2")
    echo "${#found[@]}"
}

# The last option before the word that is completed.
_dettrace_option() {
    local at
    for ((at = COMP_CWORD - 1; at > 0; at--)); do
        [[ ${COMP_WORDS[at]} != --* ]] || break
    done
    echo "${COMP_WORDS[at]}"
}

_dettrace() {
    local word=${COMP_WORDS[COMP_CWORD]} before=${COMP_WORDS[COMP_CWORD - 1]}
    local valued="--seed --budget --workers --host --stdin" options folders=1 operands
    COMPREPLY=()
    [[ ${COMP_WORDS[1]} == demo ]] && valued="--workers --host" folders=0
    [[ ${COMP_WORDS[1]} == steps ]] && valued="--seed --budget --workers --host"
    [[ ${COMP_WORDS[1]} == export ]] && folders=2
    options="$valued --"
    [[ ${COMP_WORDS[1]} == demo || ${COMP_WORDS[1]} == steps ]] && options=$valued
    mapfile -t operands < <(_dettrace_operands "$valued" 1)
    if ((COMP_CWORD == 1)); then
        _dettrace_words "run export steps demo" "$word"
    elif _dettrace_is_behind || [[ " $valued " == *" $before "* ]]; then
        return
    elif [[ $word == -* ]]; then
        _dettrace_words "$options" "$word"
    elif ((${#operands[@]} < folders)); then
        _dettrace_names -d "$word"
    elif [[ ${COMP_WORDS[1]} == steps && ${#operands[@]} == 1 ]]; then
        _dettrace_names_in "${operands[0]}" "$word"
    else
        _dettrace_words "$options" "$word"
    fi
}

_dettrace_run() {
    local word=${COMP_WORDS[COMP_CWORD]} before=${COMP_WORDS[COMP_CWORD - 1]}
    local valued="--seed --budget --workers --host --stdin --profile --report --tree --take --check"
    local others="--twice --strict --quiet --help --version"
    COMPREPLY=()
    if _dettrace_is_behind; then
        return
    elif [[ $before == --take ]]; then
        # A path in the image.
        return
    elif [[ $word == = || $before == = || " $valued " == *" $before "* ]]; then
        case $(_dettrace_option) in
        --report) _dettrace_names -f "${word#=}" ;;
        --tree | --take) _dettrace_names -d "${word#=}" ;;
        --profile) _dettrace_words "1 2" "${word#=}" ;;
        esac
    elif [[ $word == -* ]]; then
        _dettrace_words "$valued $others --" "$word"
    elif (($(_dettrace_count "$valued" 0) == 0)); then
        _dettrace_names -f "$word"
    else
        _dettrace_words "$valued $others --" "$word"
    fi
}

_dettrace_image() {
    local word=${COMP_WORDS[COMP_CWORD]} before=${COMP_WORDS[COMP_CWORD - 1]}
    local command=${COMP_WORDS[1]} options="--help"
    COMPREPLY=()
    [[ $command == pack ]] && options="--exclude --profile --help"
    [[ $command == check ]] && options="--stdin --help"
    [[ $command == unpack ]] && options="--tar --help"
    if ((COMP_CWORD == 1)); then
        _dettrace_words "pack list check unpack --help" "$word"
    elif [[ $before == --profile || ($before == = && ${COMP_WORDS[COMP_CWORD - 2]} == --profile) ]]; then
        _dettrace_words "1 2" "${word#=}"
    elif [[ $before == --exclude || $before == --stdin ]]; then
        return
    elif [[ $word == -* ]]; then
        _dettrace_words "$options" "$word"
    elif [[ $command == pack ]]; then
        _dettrace_names -f "$word"
    else
        _dettrace_names -d "$word"
    fi
}

_dettrace_report() {
    local word=${COMP_WORDS[COMP_CWORD]} before=${COMP_WORDS[COMP_CWORD - 1]}
    local command=${COMP_WORDS[1]} options="--help"
    COMPREPLY=()
    [[ $command == diff ]] && options="--color= --quiet --help"
    [[ $command == page ]] && options="--output --help"
    if ((COMP_CWORD == 1)); then
        _dettrace_words "diff output json page --help" "$word"
    elif [[ $before == --color || ($before == = && ${COMP_WORDS[COMP_CWORD - 2]} == --color) ]]; then
        _dettrace_words "always never auto" "${word#=}"
    elif [[ $word == -* ]]; then
        _dettrace_words "$options" "$word"
        [[ ${COMPREPLY-} != *= ]] || compopt -o nospace 2>/dev/null
    elif [[ $command == output ]] && (($(_dettrace_count "" 1) == 1)); then
        _dettrace_words "1 2" "$word"
    else
        _dettrace_names -f "$word"
    fi
}

complete -F _dettrace dettrace
complete -F _dettrace_run dettrace-run
complete -F _dettrace_image dettrace-image
complete -F _dettrace_report dettrace-report
