# Completions of stitch_design for bash: a command, stitch files, limits, and edits. Folders are offered too.
_stitch_design() {
    local word=${COMP_WORDS[COMP_CWORD]} command=${COMP_WORDS[1]-} file
    COMPREPLY=()
    case $COMP_CWORD:$command in
        1:*) mapfile -t COMPREPLY < <(compgen -W 'look pass edit compare threads --help --version' -- "$word") ;;
        2:look | 2:pass | 2:edit | 3:edit | 2:compare | 3:compare | 2:threads)
            compopt -o filenames 2>/dev/null
            mapfile -t COMPREPLY < <(compgen -d -- "$word")
            while IFS= read -r file; do
                [[ $file =~ \.([dD][sS][tT]|[eE][xX][pP]|[pP][eE][cCsS]|[lL][sS][tT])$ ]] && COMPREPLY+=("$file")
            done < <(compgen -f -- "$word")
            ;;
        4:compare) mapfile -t COMPREPLY < <(compgen -W '--threads' -- "$word") ;;
        *:look | *:pass) mapfile -t COMPREPLY < <(compgen -W 'short= long= float= tie= hole=' -- "$word") ;;
        *:edit) mapfile -t COMPREPLY < <(compgen -W 'tie tie= bare centre cut= float= merge= bean= scale= drop-empty thumbnails name= shift= turn= mirror=x mirror=y thread=' -- "$word") ;;
    esac
}
complete -F _stitch_design stitch_design
