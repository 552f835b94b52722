# Completes the words of `acta` in bash: commands, options, standard models and file names. tools/surface writes this file.
#
# Source it, or copy it to ~/.local/share/bash-completion/completions/acta.

_acta() {
    local commands='run explain draw trace shell explore compare judge serialize serial debug drive assemble check-image upgrade help'
    local standards='@atomic @nested @split_join @recoverable @contingent'
    # (bash splits the words at an `@`, but the second argument has it)
    local word=${2-${COMP_WORDS[COMP_CWORD]}} before=${COMP_WORDS[COMP_CWORD - 1]}
    local options='' values='' models=0 given=0 at=1
    COMPREPLY=()

    case $before in
        *'<' | *'>')
            compopt -o filenames 2> /dev/null
            mapfile -t COMPREPLY < <(compgen -f -- "$word")
            return ;;
    esac
    if [ "$COMP_CWORD" = 1 ]; then
        mapfile -t COMPREPLY < <(compgen -W "$commands --help --version" -- "$word")
        return
    fi
    case ${COMP_WORDS[1]} in
        run) options='--kept --help' models=1 ;;
        explain) options='--judge --drive --debug --rule --axiom --code --help' values='--rule --axiom --code' models=1 ;;
        draw) options='--svg --waits --txns --objects --refused --from --to --around --page --reuse --width --help' values='--txns --objects --from --to --around --page --width' models=1 ;;
        trace) options='--help' models=1 ;;
        shell) options='--help' models=1 ;;
        explore) options='--lines --end --where --most --help' values='--end --where --most' models=1 ;;
        compare) options='--explore --most --help' values='--most' models=2 ;;
        judge) options='--help' models=1 ;;
        serialize) options='--real-time --most --help' values='--most' models=1 ;;
        serial) options='--help' models=1 ;;
        debug) options='--help' models=1 ;;
        drive) options='--workers --watch --help' values='--workers --watch' models=1 ;;
        assemble) options='--help' models=1 ;;
        check-image) options='--help' models=1 ;;
        upgrade) options='--help' models=1 ;;
        help)
            [ "$COMP_CWORD" != 2 ] || mapfile -t COMPREPLY < <(compgen -W "$commands" -- "$word")
            return ;;
    esac

    # Which models stand before the word, and whether the word is the value of an option.
    while ((++at < COMP_CWORD)); do
        case ${COMP_WORDS[at]} in
            *'<' | *'>') ((++at)) ;;
            --*)
                case " $values " in
                    *" ${COMP_WORDS[at]} "*)
                        [ "${COMP_WORDS[at + 1]-}" != = ] || ((++at))
                        ((++at < COMP_CWORD)) || return ;;
                esac ;;
            @) ;;
            *[!0-9]*) ((++given)) ;;
        esac
    done
    if [ "${word:0:1}" = - ]; then
        mapfile -t COMPREPLY < <(compgen -W "$options" -- "$word")
    elif ((given < models)) && [ "${word:0:1}" = @ ]; then
        mapfile -t COMPREPLY < <(compgen -W "$standards" -- "$word")
    elif ((given < models)); then
        mapfile -t COMPREPLY < <(compgen -f -- "$word")
        [ "${#COMPREPLY[@]}" = 0 ] || compopt -o filenames 2> /dev/null
        [ "$word" ] || mapfile -t -O "${#COMPREPLY[@]}" COMPREPLY < <(compgen -W "$standards")
    fi
}

complete -F _acta acta
