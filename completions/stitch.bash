# Completions of stitch for bash. Files are offered by their endings, with the folders; for a number there is nothing.

# Sets `words` to the words of the line up to the cursor. Bash divides them at `=` and `:` too, so a part that follows
# the one before without a space is joined to it; `joined` is then 1.
_stitch_words() {
    local line=${COMP_LINE:0:COMP_POINT} rest part
    words=()
    for part in "${COMP_WORDS[@]:0:COMP_CWORD+1}"; do
        rest=${line#"${line%%[![:space:]]*}"}
        joined=0
        if [[ ${#words[@]} -gt 0 && $rest == "$line" ]]; then
            words[-1]+=$part
            joined=1
        else
            words+=("$part")
        fi
        line=${rest#"$part"}
    done
}

# Offers the folders that begin with a word, and the files that also have one of the endings, in capitals or not.
_stitch_files() {
    local file
    compopt -o filenames 2>/dev/null
    mapfile -t COMPREPLY < <(compgen -d -- "$1")
    while IFS= read -r file; do
        [[ ${file,,} =~ \.($2)$ ]] && COMPREPLY+=("$file")
    done < <(compgen -f -- "$1")
}

_stitch() {
    local words joined word command place given stitches='dst|exp|pec|pes|lst'
    local flags='--split --cut' edits='shift= turn= mirror=x mirror=y thread='
    _stitch_words
    word=${words[-1]} command=${words[1]-} place=$((${#words[@]} - 1))
    COMPREPLY=()
    case $place:$command in
        1:*)
            mapfile -t COMPREPLY < <(compgen -W 'route check convert show edit hoop sample migrate trace double' -- "$word") ;;
        [23]:convert | [23]:edit | 2:show | 2:hoop | 2:trace | 3:route | 3:check | 3:double)
            _stitch_files "$word" "$stitches" ;;
        2:route | 2:check | 2:double | [23]:migrate | 3:sample | 3:trace)
            _stitch_files "$word" rw ;;
        4:route | 4:check | 4:double)
            _stitch_files "$word" cert ;;
        [45]:convert)
            for given in "${words[@]:4:place-4}"; do flags=${flags/$given/}; done
            mapfile -t COMPREPLY < <(compgen -W "$flags" -- "$word") ;;
        *:edit)
            [[ $word != *=* ]] || edits='mirror=x mirror=y'
            mapfile -t COMPREPLY < <(compgen -W "$edits" -- "$word")
            [[ ${#COMPREPLY[@]} -eq 1 && ${COMPREPLY[0]} == *= ]] && compopt -o nospace 2>/dev/null ;;
    esac
    # Bash replaces only what follows the last `=` or `:`.
    [[ $joined -eq 0 || $word != *[=:]* ]] || COMPREPLY=("${COMPREPLY[@]#"${word%"${word##*[=:]}"}"}")
}
complete -F _stitch stitch
