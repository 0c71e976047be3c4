# Completion of darwin_run's words for fish: `source tools/darwin_run.fish`, or see tools/install. Commands come from the program's
# help, components from the description that the words name, and else files.
function __darwin_run_components
    sed -n 's/.*\<component  *\([A-Za-z_][A-Za-z0-9_]*\).*/\1/p' $argv[1] 2>/dev/null
end

# descriptions and texts of graphs
function __darwin_run_files
    __fish_complete_suffix .dar
    __fish_complete_suffix .graph
end

# the words of a change: which word is its first file, and which the first behind it but numbers
function __darwin_run_change
    set -l words (commandline -opc)
    set -l said
    test (count $words) -ge $argv[2]; and set said $words[$argv[2]..-1]
    set -l cut 0
    contains -- -- $said; and set cut (contains -i -- -- $said)
    set -l behind (math (count $said) - $cut)
    if test $cut -eq 0
        __darwin_run_components $words[$argv[1]]
        echo -- --
    else if test $behind -eq 0
        test $cut -gt 1; and __darwin_run_components $words[$argv[1]]
        __darwin_run_files
    else if test $behind -eq 1; and string match -qr '[./]' -- $said[-1]
        __darwin_run_components $said[-1]
    end
end

function __darwin_run_words
    set -l words (commandline -opc)
    set -l word (commandline -ct)
    set -l command $words[2]
    switch (count $words)":$command"
        case '1:*'
            $words[1] --help 2>/dev/null | awk '$1 == "darwin_run" { print $2 }'
        case 2:apply
        case 2:flat 2:plan 2:parts 2:roll 2:replay 3:apply
            __darwin_run_files
        case 3:flat
            __darwin_run_components $words[3]
        case '*:flat' '*:big' 3:roll 4:roll
        case 3:live
            echo -- --workers
        case 4:live
            printf '%s\n' 1 2 4 8
        case 5:live
            echo -- --watch
        case 6:live
            printf '%s\n' 1 2 3 4
        case '*:plan' '*:parts'
            __darwin_run_change 3 4
        case '*:roll'
            __darwin_run_change 3 6
        case '*:apply'
            __darwin_run_change 4 5
        case '*'
            __fish_complete_path $word
    end
end

complete -c darwin_run -f -a '(__darwin_run_words)'
