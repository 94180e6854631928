# Completion of hullbook and hulldraw for bash.
_hullbook() {
    local word=${COMP_WORDS[COMP_CWORD]} command=${COMP_WORDS[1]}
    local -A flags=(
        [run]='--after --capacity --limit --first --journal --buckets'
        [check]='--explain' [compact]='' [upgrade]=''
    )
    if [ "$COMP_CWORD" -eq 1 ]; then
        mapfile -t COMPREPLY < <(compgen -W 'run check compact upgrade' -- "$word")
    elif [[ $word == -* ]]; then
        mapfile -t COMPREPLY < <(compgen -W "${flags[$command]}" -- "$word")
    else
        mapfile -t COMPREPLY < <(compgen -f -- "$word")
    fi
}
_hulldraw() {
    local word=${COMP_WORDS[COMP_CWORD]}
    if [[ $word == -* ]]; then
        mapfile -t COMPREPLY < <(compgen -W '--line --bridges --size --film' -- "$word")
    else
        mapfile -t COMPREPLY < <(compgen -f -- "$word")
    fi
}
complete -o filenames -F _hullbook hullbook
complete -o filenames -F _hulldraw hulldraw
