# Completions of byte-unit for bash.
_byte_unit() {
    local cur prev
    cur=${COMP_WORDS[COMP_CWORD]}
    prev=${COMP_WORDS[COMP_CWORD - 1]}
    # bash splits a word at `=`.
    if [[ $cur == = ]]; then
        cur=
    elif [[ $prev == = ]]; then
        prev=${COMP_WORDS[COMP_CWORD - 2]}
    fi
    case $prev in
    --to)
        mapfile -t COMPREPLY < <(compgen -W "exact plain si iec auto B b $(echo {K,M,G,T,P,E,Z,Y,R}{,i}{B,b})" -- "$cur")
        return
        ;;
    --from)
        mapfile -t COMPREPLY < <(compgen -W 'auto si iec iec-i' -- "$cur")
        return
        ;;
    --invalid)
        mapfile -t COMPREPLY < <(compgen -W 'abort fail warn ignore' -- "$cur")
        return
        ;;
    esac
    if [[ $cur == -* ]]; then
        mapfile -t COMPREPLY < <(compgen -W '--bits --ignore-case --from= --words --to= --no-unit --suffix= --precision= --human-readable
            --delimiter= --blanks --field= --header --padding= --invalid= --total --max= --min= --no-hints --zero-terminated --help --version' -- "$cur")
        if [[ ${#COMPREPLY[@]} == 1 && ${COMPREPLY[0]} == *= ]]; then
            compopt -o nospace
        fi
    fi
}
complete -F _byte_unit byte-unit
