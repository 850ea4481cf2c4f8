# Completes the names of articles for mizv and mizv-show: the files *.miz of this folder, without the suffix.
_mizv() {
    local file
    COMPREPLY=()
    for file in "${COMP_WORDS[COMP_CWORD],,}"*.miz; do
        [ ! -f "$file" ] || COMPREPLY+=("${file%.miz}")
    done
    [[ "${COMP_WORDS[COMP_CWORD]}" != -* ]] || COMPREPLY=(--help --prove --workers --list --generate)
}
complete -F _mizv mizv mizv-show
