#compdef mkedit
# Completion of mkedit's command line for zsh.
# make install puts this file into a folder of $fpath, under the name _mkedit.

# What each command does, and its options.
# made by tools/texts: options
_mkedit_commands() {
    local -a commands
    commands=(
        'edit:Runs a script over a makefile and prints the result'
        'derive:Prints a script that makes one makefile of another'
        'vars:Lists the assignments of a makefile'
        'rules:Lists the rules of a makefile'
        'recipes:Lists the recipe lines of a makefile with their numbers'
        'check:Lists the lines of a makefile that mkedit cannot parse'
        'caveats:Lists the lines of a makefile that make may read differently'
        'get:Prints the value of a variable of a makefile'
        'explain:Explains why a command is refused, and what to do then'
        'session:Answers commands and requests on one makefile, line by line'
        'help:Prints help for a command'
    )
    _describe -t commands 'command' commands
}

_mkedit_options_of_edit() {
    options=(
        '(-k --keep-going)'{-k,--keep-going}'[Continues after a refused command]'
        '(-d --depth)'{-d+,--depth=}'[How many edits can be undone, from 1 to 10000 (default: 100)]:DEPTH: '
        '(-o --output)'{-o+,--output=}'[Writes the result to OUT; to write it to FILE itself, name FILE twice]:OUT:_files'
        '(-i --in-place)'{-i,--in-place}'[Replaces FILE with the result atomically; access lists (ACLs) are not kept]'
        '--backup=[With -i, keeps the old file as FILE with SUFFIX at its end]:SUFFIX: '
        '--diff[Prints a diff instead, for patch -p1 or git apply in the current directory (.. for ../m, / for /x/m)]'
        '--color=[When to colour changes: auto (at a terminal), always or never (default: auto)]:WHEN:(auto always never)'
        '--check[Tries every command, reports each refusal and writes nothing; with --diff, a change fails too]'
        '--summary[Ends with how many FILEs were changed; the default for several FILEs at a terminal]'
        '--force-text[Edits several FILEs even if one of them is a script and not a makefile]'
        '*'{-e+,--expression=}'[Runs COMMAND in place of SCRIPT; several -e are the lines of a script]:COMMAND: '
        '--notes[Explains messages and refusals, with the lines concerned; the default at a terminal]'
        '--report=[Reports refusals and messages as text, or with json as one JSON object per line (default: text)]:FORM:(text json)'
        '(-h --help)'{-h,--help}'[Print help]'
    )
}

_mkedit_options_of_derive() {
    options=(
        '(-o --output)'{-o+,--output=}'[Writes the result to OUT; to write it to FILE itself, name FILE twice]:OUT:_files'
        '--notes[Explains messages and refusals, with the lines concerned; the default at a terminal]'
        '(-h --help)'{-h,--help}'[Print help]'
    )
}

_mkedit_options_of_vars() {
    options=(
        '--name=[Lists only the assignments of NAME, target-specific ones too]:NAME:_mkedit_names'
        '--json[Prints one JSON object per line]'
        '--notes[Explains messages and refusals, with the lines concerned; the default at a terminal]'
        '(-h --help)'{-h,--help}'[Print help]'
    )
}

_mkedit_options_of_rules() {
    options=(
        '--target=[Lists only what belongs to the rules for TARGET]:TARGET:_mkedit_targets'
        '--json[Prints one JSON object per line]'
        '--notes[Explains messages and refusals, with the lines concerned; the default at a terminal]'
        '(-h --help)'{-h,--help}'[Print help]'
    )
}

_mkedit_options_of_recipes() {
    options=(
        '--target=[Lists only what belongs to the rules for TARGET]:TARGET:_mkedit_targets'
        '--json[Prints one JSON object per line]'
        '--notes[Explains messages and refusals, with the lines concerned; the default at a terminal]'
        '(-h --help)'{-h,--help}'[Print help]'
    )
}

_mkedit_options_of_check() {
    options=(
        '--json[Prints one JSON object per line]'
        '--notes[Explains messages and refusals, with the lines concerned; the default at a terminal]'
        '(-h --help)'{-h,--help}'[Print help]'
    )
}

_mkedit_options_of_caveats() {
    options=(
        '--json[Prints one JSON object per line]'
        '--notes[Explains messages and refusals, with the lines concerned; the default at a terminal]'
        '(-h --help)'{-h,--help}'[Print help]'
    )
}

_mkedit_options_of_get() {
    options=(
        '--nth=[Prints the value of the N-th assignment of NAME, counted from 1]:N: '
        '--json[Prints one JSON object per line]'
        '--notes[Explains messages and refusals, with the lines concerned; the default at a terminal]'
        '(-h --help)'{-h,--help}'[Print help]'
    )
}

_mkedit_options_of_explain() {
    options=(
        '(-h --help)'{-h,--help}'[Print help]'
    )
}

_mkedit_options_of_session() {
    options=(
        '(-d --depth)'{-d+,--depth=}'[How many edits can be undone, from 1 to 10000 (default: 100)]:DEPTH: '
        '--protocol[Replies as to a program, even at a terminal]'
        '--json[Prints one JSON object per line]'
        '--new[Opens a missing FILE as an empty one; `write` creates it]'
        '--color=[When to colour changes: auto (at a terminal), always or never (default: auto)]:WHEN:(auto always never)'
        '(-h --help)'{-h,--help}'[Print help]'
    )
}
# made until here

# The makefile that the command line names, or else the one that make reads in this folder.
_mkedit_makefile() {
    local it
    for it in ${(Q)words[2,-1]} GNUmakefile makefile Makefile; do
        [[ -f $it ]] && print -r -- $it && return
    done
    return 1
}

# The names that the makefile assigns.
_mkedit_names() {
    local file
    local -a names
    file=$(_mkedit_makefile) || return 1
    names=(${(f)"$(_call_program names mkedit vars -- ${(q)file} 2>/dev/null |
        sed -nE 's/^[0-9]+:[0-9]+: ((export|override|private) )*([A-Za-z0-9_.%+/@,-]+) ([?+!]|:{1,3})?=.*/\3/p')"})
    compadd "$@" -- ${(u)names}
}

# The targets of the makefile's rules.
_mkedit_targets() {
    local file
    local -a targets
    file=$(_mkedit_makefile) || return 1
    targets=(${(f)"$(_call_program targets mkedit rules -- ${(q)file} 2>/dev/null |
        sed -nE 's/^[0-9]+:[0-9]+: ([A-Za-z0-9_.%+/@, -]+)&?:.*/\1/p' | tr -s ' ' '\n')"})
    compadd "$@" -- ${(u)targets}
}

_mkedit_edit() {
    local -a options files
    _mkedit_options_of_edit
    if (( $words[(I)(-e*|--expression*)] )); then
        files=('*:makefile:_files')
    else
        files=('1:script:_files' '*:makefile:_files')
    fi
    _arguments -s $options $files
}

_mkedit_query() {
    local -a options
    (($+functions[_mkedit_options_of_$1])) || return
    _mkedit_options_of_$1
    shift
    _arguments -s $options "$@" '*:makefile:_files'
}

_mkedit_help() {
    local -a words
    # made by tools/texts: commands
    words=(
        set set-if append add drop prepend replace add-before add-after subst operator values-subst
        unset comment-out uncomment assign rule unrule depend depend-order undepend depend-replace
        recipe recipe-insert recipe-set recipe-del recipe-replace recipe-remove recipe-subst
        recipes-subst insert line-replace line-remove rule-replace rule-remove rename nth all undo
        redo begin end cancel try or
    )
    # made until here
    _alternative \
        'commands:command:_mkedit_commands' \
        "words:command of a script:(${words[*]})"
}

_mkedit_explain() {
    local -a refusals
    # made by tools/texts: refusals
    refusals=(
        BadArgument Reserved RecipePrefix NoSuch Ambiguous Absent Already Taken SharedRule Straddles
        OpenValue OpenLine OpenDefine Leans TooLong NothingToUndo NothingToRedo GroupOpen NoGroup
        NoMemory Misread
    )
    # made until here
    _arguments -s "1:refusal:(${refusals[*]})"
}

_mkedit() {
    local context state state_descr line
    typeset -A opt_args
    _arguments -C \
        '(-h --help)'{-h,--help}'[print help]' \
        '(-V --version)'{-V,--version}'[print version]' \
        '1:command:_mkedit_commands' \
        '*::argument:->argument'
    [[ $state == argument ]] || return
    case $line[1] in
        edit) _mkedit_edit ;;
        get) _mkedit_query get '1:name:_mkedit_names' ;;
        explain) _mkedit_explain ;;
        help) _arguments '1:command:_mkedit_help' ;;
        *) _mkedit_query $line[1] ;;
    esac
}

_mkedit "$@"
