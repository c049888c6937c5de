# Completions of redo for fish: options, and behind them targets, which are those that the book of the tree names and
# those that its .do files make. The tree is the directory of -C, or else the current one.

function __redo_targets --description "The targets of the tree"
    set -l dir .
    set -l before
    for word in (commandline -opc)
        switch "$before"
            case -C '-k*C' '-n*C' '-q*C' '-v*C'
                set dir $word
        end
        switch $word
            case --
                break
            case -C
            case '-C*'
                set dir (string sub -s 3 -- $word)
        end
        set before $word
    end
    set dir (string replace -r '^~(?=/|$)' $HOME -- $dir | string replace -r '/+$' '')
    if test -f $dir/.redo-book
        string replace -rf '^target \S+ ' '' <$dir/.redo-book
    end
    # The word at the cursor, without its quotes.
    set -l beginning (commandline -ct | string replace -r '^--(whichdo|r?deps)=' '' | string replace -ra '[\\\\"\']' '')
    for file in $dir/"$beginning"*.do
        set file (string replace -- $dir/ '' $file)
        if test -f $dir/$file; and not string match -qr '(^|/)default(\..*)?\.do$' -- $file
            string replace -r '\.do$' '' -- $file
        end
    end
end

complete -c redo -f
complete -c redo -s j -l jobs -x -a "(seq 64)" -d "Run up to N scripts at a time, 1 to 64"
complete -c redo -s k -l keep-going -d "Keep going when targets fail; required for a build"
complete -c redo -l bundle -d "Read the tree as a bundle from standard input"
complete -c redo -s C -x -a "(__fish_complete_directories (commandline -ct))" -d "Read the tree from the directory DIR"
complete -c redo -l top -d "Read it from the nearest directory with a book"
complete -c redo -s n -l dry-run -d "Do all but change the directory"
complete -c redo -l explain -d "Say why each script was begun"
complete -c redo -l format -x -a "report short json dot html" -d "Print as report, short, json, dot or html"
complete -c redo -l with-rules -d "With --format dot: draw .do files, too"
complete -c redo -l strict -d "Fail if a file is stale or soon will be"
complete -c redo -l take -x -a "(__fish_complete_path (commandline -ct))" -d "Build sources with a rule at or below PATH anew"
complete -c redo -l sync -d "Have each file on the disk before it gets its name"
complete -c redo -l whichdo -x -a "(__redo_targets)" -d "Print where the rule of TARGET is looked for"
complete -c redo -l targets -d "Print the built targets that stand as they were left"
complete -c redo -l sources -d "Print the sources that these depend on"
complete -c redo -l deps -x -a "(__redo_targets)" -d "Print what TARGET depends on"
complete -c redo -l rdeps -x -a "(__redo_targets)" -d "Print the targets that depend on PATH"
complete -c redo -l all -d "With --rdeps: directly or through others"
complete -c redo -l ood -d "Print which targets are out of date, and why"
complete -c redo -l shadowed -d "Print the sources that have a rule"
complete -c redo -l pack -d "Print the directory as a bundle"
complete -c redo -l unpack -d "Make a bundle's files in an empty or new directory"
complete -c redo -l clean -d "Remove the files that the last run left, and its book"
complete -c redo -l dead -d "Print or clean built files that TARGETS need no more"
complete -c redo -s v -l verbose -d "Say why targets failed, causes of messages, and notes"
complete -c redo -s q -l quiet -d "Print no notes and no progress on a terminal"
complete -c redo -s h -l help -d "Print help"
complete -c redo -s V -l version -d "Print version"
complete -c redo -n "not __fish_contains_opt whichdo targets sources deps rdeps pack unpack clean" -a "(__redo_targets)"
