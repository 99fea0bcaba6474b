# Completions of dk for bash: commands, options and file words. Source this file, or install it as
# ~/.local/share/bash-completion/completions/dk.

# _dk_files [ENDING]: the files with this ending and all folders; all files if none has it.
_dk_files() {
    compopt -o filenames 2>/dev/null
    if [ -n "${1-}" ] && compgen -f -X "!*$1" -- "$current" >/dev/null; then
        mapfile -t COMPREPLY < <(compgen -f -X "!*$1" -- "$current" && compgen -d -- "$current")
    else
        mapfile -t COMPREPLY < <(compgen -f -- "$current")
    fi
}

_dk() {
    local current=${COMP_WORDS[COMP_CWORD]} command=${COMP_WORDS[1]} options words given='' at=0 k option value
    local commands='run compile nets plan sim eval make check trace cut narrow widen explain'
    COMPREPLY=()
    if [ "$COMP_CWORD" = 1 ]; then
        mapfile -t COMPREPLY < <(compgen -W "$commands help --help --version" -- "$current")
        return
    fi
    case $command in
    help)
        [ "$COMP_CWORD" != 2 ] || mapfile -t COMPREPLY < <(compgen -W "$commands" -- "$current")
        return
        ;;
    run) words=(.dk .pgm any) options='--age' ;;
    compile) words=(.dk any) options='--enable --age --block' ;;
    nets) words=(.dk) options='--enable --age --block' ;;
    plan) words=(.dk) options='--age' ;;
    explain) words=(.dk) ;;
    sim) words=(.v number .pgm any) options='--fill --hold' ;;
    eval) words=(.dk .pgm any) ;;
    make) words=(number) ;;
    check) words=(.dk any) ;;
    trace) words=(.v number .pgm any) ;;
    cut | widen) words=(number .dk any) ;;
    narrow) words=(.dk any) ;;
    *) return ;;
    esac
    # bash makes three words of --age=1.
    value=
    for ((k = 2; k < COMP_CWORD; k++)); do
        option=${COMP_WORDS[k]}
        if [ -n "$value" ]; then
            [ "$option" = = ] || value=
        elif [ "$given" = -- ]; then
            at=$((at + 1))
        else
            case $option in
            --) given=-- options= ;;
            --age | --block | --fill | --hold) value=$option options=${options/$option/} ;;
            --enable) options=${options/$option/} ;;
            *) at=$((at + 1)) ;;
            esac
        fi
    done
    [ "$current" != = ] || current=
    case $value in
    --fill)
        mapfile -t COMPREPLY < <(compgen -W 'zeros ones' -- "$current")
        return
        ;;
    --*) return ;;
    esac
    if [ "$given" != -- ] && [[ $current == -?* ]]; then
        mapfile -t COMPREPLY < <(compgen -W "$options" -- "$current")
        return
    fi
    case ${words[at]-} in
    '' | number) ;;
    any) _dk_files ;;
    *) _dk_files "${words[at]}" ;;
    esac
}

complete -F _dk dk
