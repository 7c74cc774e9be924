# Completions of stitch_drawing for fish: a command, drawings, limits and edits. Folders are offered too.
function __stitch_drawing_at
    test (count (commandline -opc)) -eq $argv[1]
end

function __stitch_drawing_files
    complete -C "__stitch_no_command "(commandline -ct) | string match -r "^.*(?:/|\\.rw)(?=\\t|\$)"
end

complete -c stitch_drawing -f
function __stitch_drawing_does
    contains -- (commandline -opc)[2] $argv
end

complete -c stitch_drawing -n '__stitch_drawing_at 1' -a 'look snap cross space free near edit --help --version'
complete -c stitch_drawing -n '__stitch_drawing_at 2; and not __stitch_drawing_does snap' -a '(__stitch_drawing_files)'
complete -c stitch_drawing -n '__stitch_drawing_at 3; and not __stitch_drawing_does look' -a '(__stitch_drawing_files)'
complete -c stitch_drawing -n '__stitch_drawing_at 4; and __stitch_drawing_does snap' -a '(__stitch_drawing_files)'
complete -c stitch_drawing -n '__stitch_drawing_at 4; and __stitch_drawing_does cross' -a --keep -d 'keep copies of segments'
complete -c stitch_drawing -n '__stitch_drawing_at 5; and __stitch_drawing_does snap' -a --keep -d 'keep copies of segments'
complete -c stitch_drawing -n '__stitch_drawing_does edit; and test (count (commandline -opc)) -gt 3' -a 'shift= turn= mirror=x mirror=y centre step= order= start= end=' -d edit
complete -c stitch_drawing -n '__stitch_drawing_does space; and test (count (commandline -opc)) -gt 3' -a 'length= leeway=' -d limit
