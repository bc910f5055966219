# Completion of the words of kilntaupe in bash: source this file, as in ~/.bashrc.
_kilntaupe() {
    local word=${COMP_WORDS[COMP_CWORD]} before=${COMP_WORDS[COMP_CWORD - 1]} options="--repos --store"
    COMPREPLY=()
    if [ "$COMP_CWORD" -eq 1 ]; then
        mapfile -t COMPREPLY < <(compgen -W "check play run gen audit --help --version" -- "$word")
        return
    fi
    [ "${COMP_WORDS[1]} $COMP_CWORD" != "gen 2" ] || return
    case ${COMP_WORDS[1]} in
        check) ;;
        audit) options=--repos ;;
        *) options="$options --tries --mob --cache" ;;
    esac
    case $before in
        --store) mapfile -t COMPREPLY < <(compgen -d -- "$word") ;;
        --repos) mapfile -t COMPREPLY < <(compgen -W "1 2 3 4 5 6 7 8" -- "$word") ;;
        --tries | --mob | --cache) ;;
        *)
            local given
            for given in "${COMP_WORDS[@]:2}"; do
                [ "$given" = "$word" ] || options=" $options " options=${options/ $given / }
            done
            mapfile -t COMPREPLY < <(compgen -W "$options" -- "$word")
            ;;
    esac
}
complete -o filenames -F _kilntaupe kilntaupe ./kilntaupe
