"""The words that makefiles and scripts are made of: usual ones, and those that some rule speaks of."""

NAMES = b"X Y Z CC OBJS a.b _9 - a b t all define ifdef endef export override include".split()
TARGETS = [
    *b"a b c all foo t t1 tidy >b X f1 %.o x.o .PHONY -l lib.a(x.o) $(OBJ) ${c} a&b $$ $x".split(),
    *(b"$(q:;=|)", b"$(a b)", b"${g (}", b"a$#"),
]
WORDS = [*TARGETS, *b"include b& $| $: $= a,b %".split()]
# Values that an edit may write.
VALUES = [
    *b"1 2 gcc -O2 $(foo) a\\#b $$ $x $# $(a(b))${c)} $(p#q)b a\\:b c=d e:f g;h x|y $(b) \\\\x".split(),
    *(b"", b"", b"a b", b"x  y\tz", b"$(subst x y,z,w)", b"$(a #)", b"a\\ b", b"-O2 -g"),
]
# Values that only a makefile may have.
ODD_VALUES = [b"$(open", b"${open)", b"a$", b"$", b"a\\ ", b"a$ ", b"$(a", b"\\$", b"a$\\"]
OPERATORS = b"= := ::= :::= ?= += !=".split()
COMMENTS = [b"", b"", b"", b"# c", b"#", b"#c \\# d", b"# $(a", b"# c: d = e"]
COMMANDS = [
    *(b"x", b"echo a", b"a $(b", b"", b"-@rm -f $@", b"#c"),
    *(b"\ty", b" z ", b"a: b", b"X = 1", b"endef", b"a$"),
]
# What a makefile sets the recipe prefix to: values that are read, and some that are not.
PREFIXES = [b">", b"a", b"t", b"X", b"f", b":", b"-", b"e", b".", b"", b">b"]
ODD_PREFIXES = [b"\\", b"$", b"$(x)", b"# c", b"\xe9"]
MODIFIERS = [b"override", b"export", b"private"]
CONDITIONALS = [b"ifdef A", b"ifeq (a,b)", b"ifneq 'a' ''", b"ifndef A # c", b"  ifdef A"]
DIRECTIVES = [
    *(b"include x", b"-include", b"export X", b"unexport", b"undefine X", b"vpath %"),
    *(b"override undefine X", b"load x"),
]
BODIES = [
    *(b"X = 1", b"a: b", b"\tx", b"define E", b"endef", b"\tendef", b"# c", b"ifdef A", b"x\\"),
    *(b"endef # c", b"endef#c", b"define = 1"),
]
# Lines that are kept and not read inside.
OPAQUE = [
    *(b"$(call t,x)", b"a", b"override X", b"a\rb = 1", b"$(eval $(b))", b"X = \0", b"endef"),
    *(b"else", b"a;b: X = 1"),
]
ROUGH = [
    *(b"a\\ b: c", b"a: b=c d", b"a: $(b", b"a: b|c", b"a: b | c | d", b"a: b: c: d", b"a:: b: c"),
    *(b"a: b c: d", b"a: | : b", b"a: b:: c"),
]
# Bytes that mean something to some rule.
HOSTILE = [
    *(b"\\", b"$", b"$(", b")", b"${", b"}", b" ", b"\t", b"\n", b"\r", b"\r\n", b"\\\n", b"\\\r\n"),
    *(b"\0", b"#", b":", b";", b"=", b"|", b"&", b"+", b"?", b"!", b"\\#", b" \\\n ", b"\xff", b"::"),
    *(b"\\\\\n", b"a", b">"),
]
# What may follow the last line in place of its line end.
TEXT_ENDS = [b"", b"", b"", b"", b"\\", b"\r", b"\\\n", b"\\\\\n", b" \\\r\n", b"$\\"]
# Fields that some test refuses.
BAD_FIELDS = [
    *(b"", b" ", b"a b", b"a\\", b"$", b"$(a", b"#", b"a #b", b"a:", b"b|", b"=", b"a\rb", b"a\0"),
    *(b" a", b"a\t", b"a&", b"\\#", b"X Y", b"$ a", b"$\\", b"a;", b"\xe9", b"a\\ ", b"$(a b", b"\\"),
]
# Lines that a command may put in or take out, of each class.
WHOLE_LINES = [
    *(b"", b" ", b"# c", b"#", b"# X = 1", b"#Y:=", b"#\texport CC ?= a # c", b"X = 1", b"export Y := a # c", b"a: b", b"a:: ; x", b"t: X = 1", b".RECIPEPREFIX = >"),
    *(b"\tx", b"\t# c", b"\tX = 1", b"\t", b">x", b"else", b"endif", b"define D", b"endef", b"X = a \\\\", b"$(a"),
    *(b"define .RECIPEPREFIX", b"ifdef", b"endif # c", b"<<E", b"\xff"),
    *(CONDITIONALS + DIRECTIVES + BODIES + OPAQUE + ROUGH),
]
# Blocks of several lines, and one of an empty line.
BLOCKS = [
    *(b"ifdef A\nX = 1\nendif", b"n1: a\n\tx\n\ty", b"define N\na\nendef", b"X = a \\\n  b", b"\n# c\n", b"", b"\n"),
    *(b"a: b\n\ta; \\\n\tb", b"ifdef A\nX = 1", b"endif\nifdef B", b"else\nX = 2", b"<<E\nE2", b"X = 1\nX = 1"),
]
# The words that end blocks.
END_WORDS = [b"E", b"END", b"_1"]
# What may stand in the place of a line of a class, so that the lines below read as before.
SAME_CLASS = {
    "If": CONDITIONALS,
    "Else": [b"else", b" else # c", b"else ifdef B"],
    "Endif": [b"endif", b" endif", b"endif # c"],
    "DefineHead": [b"define E", b"override define D", b"export define D =  # c"],
    "Endef": [b"endef", b" endef", b"endef # c"],
}
RESERVED = b"include endif -load override vpath else sinclude ifeq undefine private".split()
NO_COMMANDS = [
    *(b"frobnicate", b"set X", b"nth 1 undo", b'set X "a', b'"a"b', b"nth 1 assign bottom X = 1"),
    *(b" # c", b"recipe-del a -1", b"nth 4294967296 unset X", b"assign X = 1", b"undo 1", b"\r"),
    *(b"rule bottom a &: b", b"nth 00000000001 unset X", b'set X "\\a"', b"assign bottom X == 1"),
    *(b"nth 1 rename a b", b"nth", b"recipe-set a +1 x", b"unset X Y", b"\xc2\xa0", b'"" X'),
    *(b"try undo", b"or cancel", b"try", b"or", b"try try unset X", b"or or unset X", b"nth 1 try unset X"),
    *(b"undo\nor unset X", b"try unset X\nor unset X", b"# c\nor nth 1 end"),
    *(b"all", b"all unset X", b"all undo", b"all set X", b"all all set X 1", b"all rename a b"),
    *(b"operator X ==", b"operator X", b"subst X a", b"replace X a", b"prepend X"),
    *(b"add-before X a", b"add-after X a", b"all add-before X a b", b"all add-after X a b"),
    *(b"all nth 1 set X 1", b"nth 1 all set X 1", b"all try set X 1", b"all assign bottom X = 1"),
    *(b"insert X", b"insert top", b"insert after-line x", b"nth 1 insert top x", b"nth 1 insert bottom x"),
    *(b"all insert top x", b"all line-replace a b", b"all line-remove a", b"line-replace a", b"line-remove a b"),
    *(b"assign after-line x Y = 1", b"rule before-line x a : b"),
    *(b"insert top <<E\nx", b"insert top <<E\nE", b"line-remove <<E", b"insert top <<E x\nE", b"line-replace <<E <<E\nx\nE\n"),
    *(b"all recipe-subst a b c", b"nth 1 values-subst a b", b"nth 1 recipes-subst a b", b"recipe-subst a b"),
    *(b"set-if X 1", b"all comment-out X", b"all uncomment X", b"uncomment", b"comment-out X Y", b"all set-if X 1"),
    *(b"depend-replace a b", b"all depend-replace a b c", b"rule-replace a", b"rule-remove", b"rule-remove a b"),
    *(b"nth 1 assign top X = 1", b"nth 1 insert after-last-var X x", b"assign after-last-var = 1", b"rule after-rule a : b"),
    *(b"rule-replace a <<E\nx", b"rule-replace a <<E\nE", b"all rule-replace a b", b"insert after-rule <<E x"),
    *(b"nth 1 all operator X =", b"all values-subst a b", b"values-subst a", b"recipes-subst X a b", b"all replace X a"),
]
