# Completions of redo for bash, version 4 or later: options, and behind them targets, which are those that the book of
# the tree names and those that its .do files make. The tree is the directory of -C, or the current one; for --top it is the
# nearest one with a book, and words are read in the current one.

_redo_options=(
    "-j            Run up to N scripts at a time, 1 to 64"
    "--jobs        Run up to N scripts at a time, 1 to 64"
    "-k            Keep going when targets fail; required for a build"
    "--keep-going  Keep going when targets fail; required for a build"
    "--bundle      Read the tree as a bundle from standard input"
    "-C            Read the tree from the directory DIR"
    "--top         Read it from the nearest directory with a book"
    "-n            Do all but change the directory"
    "--dry-run     Do all but change the directory"
    "--explain     Say why each script was begun"
    "--format      Print as report, short, json, dot or html"
    "--with-rules  With --format dot: draw .do files, too"
    "--strict      Fail if a file is stale or soon will be"
    "--take        Build sources with a rule at or below PATH anew"
    "--sync        Have each file on the disk before it gets its name"
    "--whichdo     Print where the rule of TARGET is looked for"
    "--targets     Print the built targets that stand as they were left"
    "--sources     Print the sources that these depend on"
    "--deps        Print what TARGET depends on"
    "--rdeps       Print the targets that depend on PATH"
    "--all         With --rdeps: directly or through others"
    "--ood         Print which targets are out of date, and why"
    "--shadowed    Print the sources that have a rule"
    "--pack        Print the directory as a bundle"
    "--unpack      Make a bundle's files in an empty or new directory"
    "--clean       Remove the files that the last run left, and its book"
    "--dead        Print or clean built files that TARGETS need no more"
    "-v            Say why targets failed, causes of messages, and notes"
    "--verbose     Say why targets failed, causes of messages, and notes"
    "-q            Print no notes and no progress on a terminal"
    "--quiet       Print no notes and no progress on a terminal"
    "-h            Print help"
    "--help        Print help"
    "-V            Print version"
    "--version     Print version"
)

# _redo_plain WORD: sets REPLY to a word of the command line without its quotes.
_redo_plain() {
    case $1 in
    \'*) REPLY=${1#\'} REPLY=${REPLY%\'} ;;
    \"*) REPLY=${1#\"} REPLY=${REPLY%\"} ;;
    # Without -r, read takes a backslash as the shell does.
    *) IFS= read REPLY <<<"$1" ;;
    esac
}

# _redo_offer WORD..: offers those that begin as the word at the cursor does, each once.
_redo_offer() {
    local it
    local -A offered
    for it; do
        [[ $it == "$word"* && ! ${offered[$it]-} ]] || continue
        offered[$it]=yes
        COMPREPLY+=("$it")
    done
}

# _redo_find_top: where --top is said, sets dir to the nearest directory with a book, and below to what leads from there to
# the current one, with a slash behind it.
_redo_find_top() {
    local at=$PWD
    [[ $top ]] || return 0
    while [[ ! -f $at/.redo-book ]]; do
        [[ $at ]] || return 0
        at=${at%/*}
    done
    below=${PWD#"$at"}
    below=${below#/}
    below=${below:+$below/}
    book=$at
}

# One program is started for all names of the book, and none for the .do files. Of --top's those below the current directory
# are offered.
_redo_offer_targets() {
    local path names=() pattern='s/^target [0-9a-z]* //p' below= book=$dir
    [[ $awaited != path ]] || pattern='s/^\(target\|change\) [0-9a-z]* //p; s/^create //p'
    _redo_find_top
    if [[ -f $book/.redo-book ]]; then
        while IFS= read -r path; do
            [[ $path != "$below"* ]] || names+=("${path#"$below"}")
        done < <(sed -n "$pattern" "$book/.redo-book")
    fi
    for path in "$dir/$word"*.do; do
        path=${path#"$dir/"}
        case ${path##*/} in
        default.do | default.*.do) ;;
        *) [[ ! -f $dir/$path ]] || names+=("${path%.do}") ;;
        esac
    done
    _redo_offer "${names[@]}"
    compopt -o filenames 2>/dev/null
}

# Where bash lists the options and inserts none, each has its description.
_redo_offer_options() {
    _redo_offer "${_redo_options[@]}"
    [[ ${#COMPREPLY[@]} -gt 1 && ${COMP_TYPE-} == @(33|63|64) ]] || COMPREPLY=("${COMPREPLY[@]%% *}")
}

_redo() {
    local at awaited= dir=. ended= alone= dead= top= word REPLY
    COMPREPLY=()
    # The option that awaits the word at the cursor. An = is a word of its own.
    for ((at = 1; at < COMP_CWORD; at++)); do
        _redo_plain "${COMP_WORDS[at]}"
        if [[ $awaited ]]; then
            [[ $REPLY != = ]] || continue
            [[ $awaited != dir ]] || dir=$REPLY
            awaited=
        elif [[ ! $ended ]]; then
            case $REPLY in
            --) ended=yes ;;
            -j | -[knqv]*j | --jobs) awaited=number ;;
            -C | -[knqv]*C) awaited=dir ;;
            -C?*) dir=${REPLY#-C} ;;
            --format) awaited=format ;;
            --take) awaited=place ;;
            --top) top=yes ;;
            --whichdo | --deps) awaited=target alone=yes ;;
            --rdeps) awaited=path alone=yes ;;
            --dead) dead=yes ;;
            --targets | --sources | --shadowed | --pack | --unpack | --clean) alone=yes ;;
            esac
        fi
    done
    [[ $dir != '~' && $dir != '~/'* ]] || dir=$HOME${dir#\~}
    _redo_plain "${COMP_WORDS[COMP_CWORD]}"
    word=$REPLY
    [[ ! $awaited || $word != = ]] || word=
    case $awaited in
    number) _redo_offer {1..64} ;;
    dir)
        mapfile -t COMPREPLY < <(compgen -d -- "$word")
        compopt -o filenames 2>/dev/null
        ;;
    place)
        mapfile -t COMPREPLY < <(cd -- "$dir" 2>/dev/null && compgen -f -- "$word")
        compopt -o filenames 2>/dev/null
        ;;
    format) _redo_offer report short json dot html ;;
    target | path) _redo_offer_targets ;;
    *)
        [[ $alone && ! $dead || ! $ended && $word == -* ]] || _redo_offer_targets
        [[ $ended || ${#COMPREPLY[@]} -gt 0 || $word && $word != -* ]] || _redo_offer_options
        ;;
    esac
}

complete -F _redo redo
