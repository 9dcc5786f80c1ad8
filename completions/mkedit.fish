# Completion of mkedit's command line for fish.
# make install puts this file where fish looks for completions of its own accord.

# The makefile that the command line names, or else the one that make reads in this folder.
function __mkedit_makefile
    for it in (commandline -opc)[3..] (commandline -ct) GNUmakefile makefile Makefile
        test -f "$it"; and printf '%s\n' $it; and return
    end
    return 1
end

# The names that the makefile assigns.
function __mkedit_names
    set -l file (__mkedit_makefile); or return
    mkedit vars -- $file 2>/dev/null | string replace -rf '^\d+:\d+: (?:(?:export|override|private) )*([\w.%+/@,-]+) (?:[?+!]|:{1,3})?=.*' '$1' | sort -u
end

# The targets of the makefile's rules.
function __mkedit_targets
    set -l file (__mkedit_makefile); or return
    mkedit rules -- $file 2>/dev/null | string replace -rf '^\d+:\d+: ([\w.%+/@, -]+)&?:.*' '$1' | string split -n ' ' | sort -u
end

complete -c mkedit -f
complete -c mkedit -s h -l help -d 'Print help'
complete -c mkedit -n __fish_use_subcommand -s V -l version -d 'Print version'

# made by tools/texts: options
complete -c mkedit -n __fish_use_subcommand -a edit -d 'Runs a script over a makefile and prints the result'
complete -c mkedit -n __fish_use_subcommand -a derive -d 'Prints a script that makes one makefile of another'
complete -c mkedit -n __fish_use_subcommand -a vars -d 'Lists the assignments of a makefile'
complete -c mkedit -n __fish_use_subcommand -a rules -d 'Lists the rules of a makefile'
complete -c mkedit -n __fish_use_subcommand -a recipes -d 'Lists the recipe lines of a makefile with their numbers'
complete -c mkedit -n __fish_use_subcommand -a check -d 'Lists the lines of a makefile that mkedit cannot parse'
complete -c mkedit -n __fish_use_subcommand -a caveats -d 'Lists the lines of a makefile that make may read differently'
complete -c mkedit -n __fish_use_subcommand -a get -d 'Prints the value of a variable of a makefile'
complete -c mkedit -n __fish_use_subcommand -a explain -d 'Explains why a command is refused, and what to do then'
complete -c mkedit -n __fish_use_subcommand -a session -d 'Answers commands and requests on one makefile, line by line'
complete -c mkedit -n '__fish_seen_subcommand_from edit; and not __fish_seen_subcommand_from help' -s k -l keep-going -d 'Continues after a refused command'
complete -c mkedit -n '__fish_seen_subcommand_from edit session; and not __fish_seen_subcommand_from help' -s d -l depth -x -d 'How many edits can be undone, from 1 to 10000 [default: 100]'
complete -c mkedit -n '__fish_seen_subcommand_from edit derive; and not __fish_seen_subcommand_from help' -s o -l output -r -F -d 'Writes the result to OUT; to write it to FILE itself, name FILE twice'
complete -c mkedit -n '__fish_seen_subcommand_from edit; and not __fish_seen_subcommand_from help' -s i -l in-place -d 'Replaces FILE with the result atomically; access lists (ACLs) are not kept'
complete -c mkedit -n '__fish_seen_subcommand_from edit; and not __fish_seen_subcommand_from help' -l backup -x -d 'With -i, keeps the old file as FILE with SUFFIX at its end'
complete -c mkedit -n '__fish_seen_subcommand_from edit; and not __fish_seen_subcommand_from help' -l diff -d 'Prints a diff instead, for patch -p1 or git apply in the current directory (.. for ../m, / for /x/m)'
complete -c mkedit -n '__fish_seen_subcommand_from edit session; and not __fish_seen_subcommand_from help' -l color -x -a 'auto always never' -d 'When to colour changes: auto (at a terminal), always or never [default: auto]'
complete -c mkedit -n '__fish_seen_subcommand_from edit; and not __fish_seen_subcommand_from help' -l check -d 'Tries every command, reports each refusal and writes nothing; with --diff, a change fails too'
complete -c mkedit -n '__fish_seen_subcommand_from edit; and not __fish_seen_subcommand_from help' -l summary -d 'Ends with how many FILEs were changed; the default for several FILEs at a terminal'
complete -c mkedit -n '__fish_seen_subcommand_from edit; and not __fish_seen_subcommand_from help' -l force-text -d 'Edits several FILEs even if one of them is a script and not a makefile'
complete -c mkedit -n '__fish_seen_subcommand_from edit; and not __fish_seen_subcommand_from help' -s e -l expression -x -d 'Runs COMMAND in place of SCRIPT; several -e are the lines of a script'
complete -c mkedit -n '__fish_seen_subcommand_from edit derive vars rules recipes check caveats get; and not __fish_seen_subcommand_from help' -l notes -d 'Explains messages and refusals, with the lines concerned; the default at a terminal'
complete -c mkedit -n '__fish_seen_subcommand_from edit; and not __fish_seen_subcommand_from help' -l report -x -a 'text json' -d 'Reports refusals and messages as text, or with json as one JSON object per line [default: text]'
complete -c mkedit -n '__fish_seen_subcommand_from vars; and not __fish_seen_subcommand_from help' -l name -x -a '(__mkedit_names)' -d 'Lists only the assignments of NAME, target-specific ones too'
complete -c mkedit -n '__fish_seen_subcommand_from vars rules recipes check caveats get session; and not __fish_seen_subcommand_from help' -l json -d 'Prints one JSON object per line'
complete -c mkedit -n '__fish_seen_subcommand_from rules recipes; and not __fish_seen_subcommand_from help' -l target -x -a '(__mkedit_targets)' -d 'Lists only what belongs to the rules for TARGET'
complete -c mkedit -n '__fish_seen_subcommand_from get; and not __fish_seen_subcommand_from help' -l nth -x -d 'Prints the value of the N-th assignment of NAME, counted from 1'
complete -c mkedit -n '__fish_seen_subcommand_from session; and not __fish_seen_subcommand_from help' -l protocol -d 'Replies as to a program, even at a terminal'
complete -c mkedit -n '__fish_seen_subcommand_from session; and not __fish_seen_subcommand_from help' -l new -d 'Opens a missing FILE as an empty one; `write` creates it'
complete -c mkedit -n '__fish_seen_subcommand_from edit derive vars rules recipes check caveats get session; and not __fish_seen_subcommand_from help' -F
complete -c mkedit -n '__fish_seen_subcommand_from help' -a 'edit derive vars rules recipes check caveats get explain session help'
# made until here
complete -c mkedit -n __fish_use_subcommand -a help -d 'Prints help for a command'

complete -c mkedit -n '__fish_seen_subcommand_from get; and test (count (commandline -opc)) -eq 2' -a '(__mkedit_names)'
# made by tools/texts: commands
set -l script_commands set set-if append add drop prepend replace add-before add-after subst operator values-subst unset comment-out uncomment assign rule unrule depend depend-order undepend depend-replace recipe recipe-insert recipe-set recipe-del recipe-replace recipe-remove recipe-subst recipes-subst insert line-replace line-remove rule-replace rule-remove rename nth all undo redo begin end cancel try or
# made until here
complete -c mkedit -n '__fish_seen_subcommand_from help' -a "$script_commands"
# made by tools/texts: refusals
set -l refusals BadArgument Reserved RecipePrefix NoSuch Ambiguous Absent Already Taken SharedRule Straddles OpenValue OpenLine OpenDefine Leans TooLong NothingToUndo NothingToRedo GroupOpen NoGroup NoMemory Misread
# made until here
complete -c mkedit -n '__fish_seen_subcommand_from explain; and not __fish_seen_subcommand_from help' -a "$refusals"
