# Completions of stitch_picture for bash: a stitch file or a drawing, the certificate of a drawing, and a picture to write.
# Folders are offered too.
_stitch_picture() {
    local word=${COMP_WORDS[COMP_CWORD]} file endings second=svg words= third='plain plain= size='
    [[ ${COMP_WORDS[1]-} == *.[rR][wW] ]] && second='[cC][eE][rR][tT]|svg' third=size=
    compopt -o filenames 2>/dev/null
    COMPREPLY=()
    if [[ $COMP_CWORD == 1 && $word == -* ]]; then
        mapfile -t COMPREPLY < <(compgen -W '--help --version' -- "$word")
        return
    fi
    case $COMP_CWORD in
        1) endings='[dD][sS][tT]|[eE][xX][pP]|[pP][eE][cCsS]|[lL][sS][tT]|[rR][wW]' ;;
        2) endings=$second ;;
        3) if [[ ${COMP_WORDS[2]} == *.[cC][eE][rR][tT] ]]; then endings=svg; else words=$third; fi ;;
        4 | 5) words=size= ;;
    esac
    if [[ -n $words ]]; then
        compopt -o nospace 2>/dev/null
        mapfile -t COMPREPLY < <(compgen -W "$words" -- "$word")
    fi
    [ -n "${endings-}" ] || return
    mapfile -t -O "${#COMPREPLY[@]}" COMPREPLY < <(compgen -d -- "$word")
    while IFS= read -r file; do
        [[ $file =~ \.($endings)$ ]] && COMPREPLY+=("$file")
    done < <(compgen -f -- "$word")
}
complete -F _stitch_picture stitch_picture
