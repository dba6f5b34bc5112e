# Completes the words of the command sheet, in bash.

_sheet() {
    local word=${COMP_WORDS[COMP_CWORD]} before=$((COMP_CWORD - 1)) options='' choices=''
    COMPREPLY=()
    # --lock=xor is three words here.
    if [ "$word" = = ]; then
        word=''
    elif [ "${COMP_WORDS[before]}" = = ]; then
        before=$((before - 1))
    fi
    if [ "$COMP_CWORD" = 1 ]; then
        choices='look same-lock list directory forecast open seal refusals -h --help -V --version'
        mapfile -t COMPREPLY < <(compgen -W "$choices" -- "$word")
        return
    fi
    case ${COMP_WORDS[1]} in
    look | same-lock) options='-q --quiet' ;;
    list | directory | forecast) ;;
    open) options='-o --output --password-file' ;;
    seal) options='-o --output --password-file --lock --key-size --major' ;;
    *) return ;;
    esac
    case ${COMP_WORDS[before]} in
    -o | --output | --password-file) ;;
    --lock) choices='cryptoapi office97 xor' ;;
    --key-size) choices='40 48 56 64 72 80 88 96 104 112 120 128' ;;
    --major) choices='2 3 4' ;;
    *) [[ $word != -* ]] || choices=$options ;;
    esac
    if [ -n "$choices" ]; then
        mapfile -t COMPREPLY < <(compgen -W "$choices" -- "$word")
    elif [[ $word != -* ]]; then
        # Names of files, as bash completes them.
        compopt -o default 2>/dev/null || true
    fi
}

complete -F _sheet sheet
