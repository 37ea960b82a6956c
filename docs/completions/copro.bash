# Completion of copro's words in bash: source this file, or put it as `copro` into the folder of bash-completion.
# The options of each command stand in one list; tests/options.py compares them with those of the program.

_copro() {
    local word=${COMP_WORDS[COMP_CWORD]} last=${COMP_WORDS[COMP_CWORD - 1]} options
    COMPREPLY=()
    if ((COMP_CWORD == 1)); then
        mapfile -t COMPREPLY < <(compgen -W "simplify extend generate help --help --version" -- "$word")
        return
    fi
    case ${COMP_WORDS[1]} in
        simplify) options="--cnf --reduced --stack --proof --summary --workers --rounds --hood --bound --budget --only --proof-form" ;;
        extend) options="--stack --model --full" ;;
        generate) options="--seed --vars --clauses --summary" ;;
        help) options="simplify extend generate" ;;
        *) return ;;
    esac
    # A command's help stands alone after it.
    [[ ${COMP_WORDS[1]} == help ]] || ((COMP_CWORD > 2)) || options+=" --help"
    # Bash cuts a word at its `=`: of `--cnf=a` the words are `--cnf`, `=` and `a`.
    if [[ $word == = ]]; then
        word=
    elif [[ $last == = ]]; then
        last=${COMP_WORDS[COMP_CWORD - 2]}
    fi
    case $last in
        --cnf | --reduced | --stack | --proof | --summary | --model | --full)
            mapfile -t COMPREPLY < <(compgen -W "std none" -f -- "$word")
            compopt -o filenames 2>/dev/null ;;
        --only) mapfile -t COMPREPLY < <(compgen -W "t s x b e ts tsx tsxb tsxbe" -- "$word") ;;
        --proof-form) mapfile -t COMPREPLY < <(compgen -W "text binary" -- "$word") ;;
        --workers | --rounds | --hood | --bound | --budget | --seed | --vars | --clauses) ;;
        *) mapfile -t COMPREPLY < <(compgen -W "$options" -- "$word") ;;
    esac
}

complete -F _copro copro
