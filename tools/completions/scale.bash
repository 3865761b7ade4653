# Completion of `scale` and `pace` for bash: `source tools/completions/scale.bash`.

# The words of a command, as `scale help` has them. Those of `scale`, of `pace` and of `pace draw` themselves are their commands.
_scale_words() {
    case $1 in
    scale) echo "hold rewrite report simulate make help check lower survey tune" ;;
    "scale hold") echo "IMAGE MACHINE LOOPS OUT" ;;
    "scale rewrite") echo "IMAGE MACHINE LOOPS OUT" ;;
    "scale report") echo "IMAGE MACHINE LOOPS" ;;
    "scale simulate") echo "IMAGE MACHINE INPUT OUT LOOPS" ;;
    "scale make") echo "NUMBER SIZE PREFIX" ;;
    "scale check") echo "IMAGE FOREIGN MACHINE LOOPS" ;;
    "scale lower") echo "IMAGE JUMPS OUT" ;;
    "scale survey") echo "IMAGE SCALED MACHINE LOOPS INPUT .." ;;
    "scale tune") echo "IMAGE MACHINE LOOPS OUT INPUT .." ;;
    pace) echo "fit show loops explain draw jumps split all" ;;
    "pace fit") echo "IMAGE MACHINE LOOPS OUT INPUT .." ;;
    "pace show") echo "IMAGE MACHINE LOOPS" ;;
    "pace loops") echo "IMAGE OUT INPUT .." ;;
    "pace explain") echo "IMAGE MACHINE LOOPS" ;;
    "pace draw") echo "run plan" ;;
    "pace draw run") echo "MACHINE OUT IMAGE INPUT .." ;;
    "pace draw plan") echo "IMAGE MACHINE LOOPS OUT" ;;
    "pace jumps") echo "IMAGE OUT" ;;
    "pace split") echo "IMAGE OUT" ;;
    "pace all") echo "IMAGE MACHINE OUT INPUT .." ;;
    esac
}

# The options of a command that begin with a word of their own.
_scale_options() {
    case $1 in
    "pace loops") echo "--input-bytes --trust-stores" ;;
    "pace fit") echo "--versions" ;;
    "pace all") echo "--input-bytes --no-versions" ;;
    esac
}

_scale() {
    local command=${COMP_WORDS[0]##*/} current=${COMP_WORDS[COMP_CWORD]} at=1 words word
    COMPREPLY=()
    if [ "$COMP_CWORD" -gt 1 ] && [ "$command ${COMP_WORDS[1]}" = "pace draw" ]; then
        command="pace draw" at=2
    fi
    if [ "$COMP_CWORD" -eq "$at" ]; then
        COMPREPLY=($(compgen -W "$(_scale_words "$command")" -- "$current"))
        return
    fi
    if [[ $current == -* ]]; then
        COMPREPLY=($(compgen -W "$(_scale_options "$command ${COMP_WORDS[at]}")" -- "$current"))
        return
    fi
    if [ "${COMP_WORDS[COMP_CWORD - 1]}" = --input-bytes ]; then
        return
    fi
    read -r -a words <<< "$(_scale_words "$command ${COMP_WORDS[at]}")"
    word=${words[COMP_CWORD - at - 1]:-}
    if [ "${words[-1]:-}" = .. ] && [ "$((COMP_CWORD - at + 1))" -ge "${#words[@]}" ]; then
        word=INPUT
    fi
    case $word in
    "" | NUMBER | SIZE) ;;
    MACHINE | LOOPS | JUMPS)
        compopt -o filenames 2> /dev/null
        mapfile -t COMPREPLY < <(compgen -d -- "$current"; compgen -f -X "!*.toml" -- "$current")
        ;;
    *)
        compopt -o filenames 2> /dev/null
        mapfile -t COMPREPLY < <(compgen -f -- "$current")
        ;;
    esac
}

complete -F _scale scale pace
