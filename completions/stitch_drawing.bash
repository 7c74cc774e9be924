# Completions of stitch_drawing for bash: a command, drawings, limits and edits. Folders are offered too.
_stitch_drawing() {
    local word=${COMP_WORDS[COMP_CWORD]} command=${COMP_WORDS[1]-} file
    COMPREPLY=()
    case $COMP_CWORD:$command in
        1:*) mapfile -t COMPREPLY < <(compgen -W 'look snap cross space free near edit --help --version' -- "$word") ;;
        2:look | 3:snap | 4:snap | 2:cross | 3:cross | 2:space | 3:space | 2:free | 3:free | 2:near | 3:near | 2:edit | 3:edit)
            compopt -o filenames 2>/dev/null
            mapfile -t COMPREPLY < <(compgen -d -- "$word")
            while IFS= read -r file; do
                [[ $file == *.rw ]] && COMPREPLY+=("$file")
            done < <(compgen -f -- "$word")
            ;;
        4:cross | 5:snap) mapfile -t COMPREPLY < <(compgen -W '--keep' -- "$word") ;;
        *:space) mapfile -t COMPREPLY < <(compgen -W 'length= leeway=' -- "$word") ;;
        *:edit) mapfile -t COMPREPLY < <(compgen -W 'shift= turn= mirror=x mirror=y centre step= order= start= end=' -- "$word") ;;
    esac
}
complete -F _stitch_drawing stitch_drawing
