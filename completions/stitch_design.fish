# Completions of stitch_design for fish: a command, stitch files, limits, and edits. Folders are offered too.
function __stitch_design_at
    test (count (commandline -opc)) -eq $argv[1]
end

function __stitch_design_files
    complete -C "__stitch_no_command "(commandline -ct) | string match -r "^.*(?:/|\\.(?i:dst|exp|pec|pes|lst))(?=\\t|\$)"
end

complete -c stitch_design -f
function __stitch_design_does
    contains -- (commandline -opc)[2] $argv
end

complete -c stitch_design -n '__stitch_design_at 1' -a 'look pass edit compare threads --help --version'
complete -c stitch_design -n '__stitch_design_at 2; and __stitch_design_does look pass edit compare threads' -a '(__stitch_design_files)'
complete -c stitch_design -n '__stitch_design_at 3; and __stitch_design_does edit compare' -a '(__stitch_design_files)'
complete -c stitch_design -n '__stitch_design_at 4; and __stitch_design_does compare' -a '--threads' -d compare
complete -c stitch_design -n '__stitch_design_does look pass; and test (count (commandline -opc)) -gt 2' -a 'short= long= float= tie= hole=' -d limit
complete -c stitch_design -n '__stitch_design_does edit; and test (count (commandline -opc)) -gt 3' -a 'tie tie= bare centre cut= float= merge= bean= scale= drop-empty thumbnails name= shift= turn= mirror=x mirror=y thread=' -d edit
