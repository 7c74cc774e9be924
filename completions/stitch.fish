# Completions of stitch for fish. Files are offered by their endings, with the folders; for a number there is nothing.

# Succeeds if that number of words is before the cursor, without the program's name, and the first is one of the others.
function __stitch_at
    set -l words (commandline -opc)
    test (math (count $words) - 1) -eq $argv[1]; and contains -- $words[2] $argv[2..-1]
end

# Succeeds at the flags of a conversion if a flag isn't given yet.
function __stitch_lacks
    begin; __stitch_at 3 convert; or __stitch_at 4 convert; end; and not contains -- $argv (commandline -opc)
end

# The files with one of the endings, in capitals or not, and the folders.
function __stitch_files
    complete -C "__stitch_no_command "(commandline -ct) | string match -r -i "^.*(?:/|\\.(?:$argv[1]))(?=\\t|\$)"
end

complete -c stitch -f
complete -c stitch -n __fish_use_subcommand -a route -d 'sew a drawing as one running thread for each piece'
complete -c stitch -n __fish_use_subcommand -a check -d 'judge a drawing, a design and a certificate'
complete -c stitch -n __fish_use_subcommand -a convert -d 'write a design in another format'
complete -c stitch -n __fish_use_subcommand -a show -d 'print what a file holds'
complete -c stitch -n __fish_use_subcommand -a edit -d 'shift, turn, mirror, or give a thread'
complete -c stitch -n __fish_use_subcommand -a hoop -d 'say whether a design fits a hoop'
complete -c stitch -n __fish_use_subcommand -a sample -d 'write the sample drawing of a number'
complete -c stitch -n __fish_use_subcommand -a migrate -d 'write a drawing as version 2'
complete -c stitch -n __fish_use_subcommand -a trace -d 'draw what a file sews'
complete -c stitch -n __fish_use_subcommand -a double -d 'sew each line of a drawing once in each direction'
complete -c stitch -n '__stitch_at 1 convert edit show hoop trace' -a "(__stitch_files 'dst|exp|pec|pes|lst')"
complete -c stitch -n '__stitch_at 2 convert edit route check double' -a "(__stitch_files 'dst|exp|pec|pes|lst')"
complete -c stitch -n '__stitch_at 1 route check double migrate' -a '(__stitch_files rw)'
complete -c stitch -n '__stitch_at 2 sample migrate trace' -a '(__stitch_files rw)'
complete -c stitch -n '__stitch_at 3 route check double' -a '(__stitch_files cert)'
complete -c stitch -n '__stitch_lacks --split' -a '--split' -d 'sew a stitch that is too long as several'
complete -c stitch -n '__stitch_lacks --cut' -a '--cut' -d 'cut every float'
complete -c stitch -n '__fish_seen_subcommand_from edit; and test (count (commandline -opc)) -gt 3' -a 'shift= turn= mirror=x mirror=y thread=' -d edit
