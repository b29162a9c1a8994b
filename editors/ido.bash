# Words of ido and ./ido in bash: `source editors/ido.bash`. Made by tools/editor-files of tools/ido_tools/words.py: edit these.

_ido() {
    local current=${COMP_WORDS[COMP_CWORD]} at=1 words=
    [[ ${COMP_WORDS[1]} == --explain ]] && ((COMP_CWORD > 1)) && at=2
    COMPREPLY=()
    if ((COMP_CWORD == at)); then
        words='compile list regions order play image recover upgrade source seeded live make load sweep'
        ((at == 1)) && words+=' --explain --help --version'
    elif [[ ${COMP_WORDS[COMP_CWORD - 1]} == --scheme ]]; then
        words='ido justdo'
    elif [[ ${COMP_WORDS[at]} == compile ]]; then
        words='--scheme'
    elif [[ ${COMP_WORDS[at]} == regions ]]; then
        words='--least'
    elif [[ ${COMP_WORDS[at]} == play ]]; then
        words='--fences --scheme'
    elif [[ ${COMP_WORDS[at]} == image ]]; then
        words='--scheme'
    elif [[ ${COMP_WORDS[at]} == seeded ]]; then
        words='--journal --scheme'
    elif [[ ${COMP_WORDS[at]} == live ]]; then
        words='--evict --journal --scheme'
    elif [[ ${COMP_WORDS[at]} == load ]]; then
        words='--scheme'
    elif [[ ${COMP_WORDS[at]} == sweep ]]; then
        words='--scheme'
    fi
    [[ $words ]] && mapfile -t COMPREPLY < <(compgen -W "$words" -- "$current")
}
complete -o default -F _ido ido
