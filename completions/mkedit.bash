# Completion of mkedit's command line for bash.
# make install puts this file where bash-completion finds it; `source` of it works as well.

# The options of a command, in the order of `mkedit COMMAND --help`.
_mkedit_options() {
    case $1 in
        "") echo "-h --help -V --version" ;;
        # made by tools/texts: options
        edit) echo "-k --keep-going -d --depth -o --output -i --in-place --backup --diff --color --check --summary --force-text -e --expression --notes --report -h --help" ;;
        derive) echo "-o --output --notes -h --help" ;;
        vars) echo "--name --json --notes -h --help" ;;
        rules) echo "--target --json --notes -h --help" ;;
        recipes) echo "--target --json --notes -h --help" ;;
        check) echo "--json --notes -h --help" ;;
        caveats) echo "--json --notes -h --help" ;;
        get) echo "--nth --json --notes -h --help" ;;
        explain) echo "-h --help" ;;
        session) echo "-d --depth --protocol --json --new --color -h --help" ;;
        # made until here
        help) ;;
    esac
}

# made by tools/texts: refusals
_mkedit_refusals="BadArgument Reserved RecipePrefix NoSuch Ambiguous Absent Already Taken SharedRule \
    Straddles OpenValue OpenLine OpenDefine Leans TooLong NothingToUndo NothingToRedo GroupOpen \
    NoGroup NoMemory Misread"
# made until here

# made by tools/texts: program
_mkedit_commands="edit derive vars rules recipes check caveats get explain session help"
# made until here

# made by tools/texts: commands
_mkedit_script_commands="set set-if append add drop prepend replace add-before add-after subst \
    operator values-subst unset comment-out uncomment assign rule unrule depend depend-order \
    undepend depend-replace recipe recipe-insert recipe-set recipe-del recipe-replace recipe-remove \
    recipe-subst recipes-subst insert line-replace line-remove rule-replace rule-remove rename nth \
    all undo redo begin end cancel try or"
# made until here

# The makefile that the command line names, or else the one that make reads in this folder.
_mkedit_makefile() {
    local it
    for it in "${COMP_WORDS[@]:2}" GNUmakefile makefile Makefile; do
        [[ -f $it ]] && printf '%s\n' "$it" && return
    done
    return 1
}

# The names that the makefile assigns, one a line. One that the shell would expand or cut is left out.
_mkedit_names() {
    local file
    file=$(_mkedit_makefile) && "${COMP_WORDS[0]}" vars -- "$file" 2>/dev/null |
        sed -nE 's/^[0-9]+:[0-9]+: ((export|override|private) )*([A-Za-z0-9_.%+/@,-]+) ([?+!]|:{1,3})?=.*/\3/p'
}

# The targets of the makefile's rules, one a line. A rule with such a target is left out.
_mkedit_targets() {
    local file
    file=$(_mkedit_makefile) && "${COMP_WORDS[0]}" rules -- "$file" 2>/dev/null |
        sed -nE 's/^[0-9]+:[0-9]+: ([A-Za-z0-9_.%+/@, -]+)&?:.*/\1/p' | tr -s ' ' '\n'
}

# Offers the lines that begin with the word. They come from a makefile, so they do not go through
# `compgen -W`, which would run what stands in a `$(..)`.
_mkedit_offer() {
    local it
    while IFS= read -r it; do
        [[ $it == "$1"* ]] && COMPREPLY+=("$it")
    done < <(sort -u)
}

_mkedit() {
    local word=${COMP_WORDS[COMP_CWORD]} before=${COMP_WORDS[COMP_CWORD - 1]}
    local command=
    ((COMP_CWORD > 1)) && command=${COMP_WORDS[1]}
    COMPREPLY=()
    if [[ $command == edit && $before == @(-d|--depth|-e|--expression|--backup) ]]; then
        return # a number, a command of a script, or a suffix
    elif [[ $command == @(edit|session) && $before == --color ]]; then
        mapfile -t COMPREPLY < <(compgen -W "auto always never" -- "$word")
    elif [[ $command == edit && $before == --report ]]; then
        mapfile -t COMPREPLY < <(compgen -W "text json" -- "$word")
    elif [[ $command == session && $before == @(-d|--depth) ]]; then
        return # a number
    elif [[ $command == get && $before == --nth ]]; then
        return # a number
    elif [[ $command == get && $before == get && $word != -* || $command == vars && $before == --name ]]; then
        _mkedit_offer "$word" < <(_mkedit_names)
    elif [[ $command == @(rules|recipes) && $before == --target ]]; then
        _mkedit_offer "$word" < <(_mkedit_targets)
    elif [[ $word == -* && $before != @(-o|--output) ]]; then
        mapfile -t COMPREPLY < <(compgen -W "$(_mkedit_options "$command")" -- "$word")
    elif [[ $command == help && COMP_CWORD -eq 2 ]]; then
        mapfile -t COMPREPLY < <(compgen -W "$_mkedit_commands $_mkedit_script_commands" -- "$word")
    elif ((COMP_CWORD == 1)); then
        mapfile -t COMPREPLY < <(compgen -W "$_mkedit_commands" -- "$word")
    elif [[ $command == explain ]]; then
        ((COMP_CWORD == 2)) && mapfile -t COMPREPLY < <(compgen -W "$_mkedit_refusals" -- "$word")
    elif [[ $command != help ]]; then
        compopt -o filenames 2>/dev/null
        mapfile -t COMPREPLY < <(compgen -f -- "$word")
    fi
}

complete -F _mkedit mkedit
