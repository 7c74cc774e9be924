# Completions of stitch_picture for fish: a stitch file or a drawing, the certificate of a drawing, and a picture to write.
# Folders are offered too.
function __stitch_picture_at
    test (count (commandline -opc)) -eq $argv[1]
end

function __stitch_picture_drawing
    string match -qir '\.rw$' -- (commandline -opc)[2]
end

function __stitch_picture_cert
    string match -qir '\.cert$' -- (commandline -opc)[3]
end

function __stitch_picture_files
    complete -C "__stitch_no_command "(commandline -ct) | string match -r "^.*(?:/|\\.(?:$argv[1]))(?=\\t|\$)"
end

complete -c stitch_picture -f
complete -c stitch_picture -n '__stitch_picture_at 1' -a "(__stitch_picture_files '(?i:dst|exp|pec|pes|lst|rw)')"
complete -c stitch_picture -n '__stitch_picture_at 2' -a '(__stitch_picture_files svg)'
complete -c stitch_picture -n '__stitch_picture_at 2; and __stitch_picture_drawing' -a "(__stitch_picture_files '(?i:cert)')"
complete -c stitch_picture -n '__stitch_picture_at 3; and __stitch_picture_cert' -a '(__stitch_picture_files svg)'
complete -c stitch_picture -n '__stitch_picture_at 3; and not __stitch_picture_drawing' -a 'plain plain=' -d 'the thread alone'
complete -c stitch_picture -n '__stitch_picture_at 3; and not __stitch_picture_cert; or __stitch_picture_at 4; or __stitch_picture_at 5' -a 'size=' -d 'millimetres to fit, WxH'
complete -c stitch_picture -n '__stitch_picture_at 1' -l help -d 'the usage text'
complete -c stitch_picture -n '__stitch_picture_at 1' -l version -d 'the version'
