# Completions of jpq for bash.
_jpq() {
    local word=${COMP_WORDS[COMP_CWORD]} before=${COMP_WORDS[COMP_CWORD - 1]}
    if [[ $word == "=" ]]; then
        word=
    elif [[ $before == "=" ]]; then
        before=${COMP_WORDS[COMP_CWORD - 2]}
    fi
    local options="
        -v --values -r --raw -l --locations -p --pointers -j --json --tsv --csv -c --count -q --quiet
        --header --pretty --tab --ascii -0 --null --total -u --unique -L --lines --line-number
        --with-filename --no-filename --no-path-number --strict --check --whole-numbers -s --silent -h
        --help -V --version -e --expression -f --from-file --let -n --max -m --max-all --indent --color
    "
    COMPREPLY=()
    case $before in
        --color)
            mapfile -t COMPREPLY < <(compgen -W 'auto always never' -- "$word")
            return
            ;;
        -e|--expression|-n|--max|-m|--max-all|--indent|--let)
            return
            ;;
    esac
    if [[ $word == -* ]]; then
        mapfile -t COMPREPLY < <(compgen -W "$options" -- "$word")
    else
        compopt -o filenames
        mapfile -t COMPREPLY < <(compgen -f -- "$word")
    fi
}
complete -F _jpq jpq
