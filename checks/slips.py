"""Scripts that people write who know another language, and what tools/why has to say of each."""

SCRIPT = """setup
free class Box {
    int n;
    method int get(int k) { return this.n; }
}
root a = new Box();
client 1 tx { print a.get(1); }
"""

# By a part of that script what stands in its place, with an arrow before the token that is told; and texts that have to be said.
SLIPS = {
    "print a.get(1);": [
        ("print 2 →> 1;", "`a > b` is written `b < a`."),
        ("print 2 →>= 1;", "`a >= b` is written `(a < b) == 0`."),
        ("print 1 <→= 2;", "`a <= b` is written `(b < a) == 0`."),
        ("print 1 <→> 2;", "There is no `<>`."),
        ("a-→>get(1);", "There is no `->`"),
        ("if (a.get(1) →&& a.get(2)) { }", "There is no `&&`"),
        ("if (a.get(1) →and a.get(2)) { }", "There is no `&&`"),
        ("if (a.get(1) →|| a.get(2)) { }", "There is no `||`"),
        ("if (→!a.get(1)) { }", "`!p` is written `p == 0`"),
        ("print 6 →/ 2;", "There is no division."),
        ("print 6 →% 2;", "There is no `%`."),
        ('print →"six;', "This text isn't closed on its line."),
        ("print →'six';", 'A text stands between two `"`'),
        ('print →"six \N{LATIN SMALL LETTER O WITH DIAERESIS}";', "the letters are those of ASCII"),
        ('print →"six\t";', "Leave out tabs"),
        (f'print →"{"six" * 11}";', "longer than 32 bytes"),
        ('print "six" →"seven";', "A statement ends with `;`"),
        ('print "six" →+ "seven";', "`+ - * <` and conditions take ints", ": T3"),
        ('print 6 →== "six";', "two values of one type", ": T3"),
        ('if (→"six") { }', "a condition is an int", ": T3"),
        ('print a.get(→"six");', "Declare the parameter or the result as `text`", ": T3"),
        ('print "six".→length();', "it is an int, a text or `null`", ": T2"),
        ("var text x = new →text();", "There is no class `text`.", ": T2"),
        ("var text x→;", "Each local has a first value"),
        ('var Box b = new Box(→"six");', "`new` takes no values", "Write `new Box()`"),
        ("print 1.→5;", "There are no fractions."),
        ("var int i = 0; i+→+;", "There is no `++`"),
        ("var int i = 0; →++i;", "There is no `++`"),
        ("var int i = 0; i--→;", "no `--`"),
        ("var int i = 0; i +→= 1;", "There is no `+=`"),
        ("for →(var int i = 0; i < 3; i = i + 1) { }", "There is no `for`."),
        ("let →i = 0;", "A local begins with `var` and its type."),
        ("if (1) { } else →if (2) { }", "There is no `else if`."),
        ("print 1 →? 2 : 3;", "There is no `? :`."),
        ("print b→[1];", "There are no arrays"),
        ("var Box b = new Box(→3);", "`new` takes no values", "Write `new Box()`"),
        ("delete →a;", "Nothing is deleted"),
        ("→free a;", "Nothing is deleted"),
        ("→# a word", "`#` begins no comment."),
        ("→/* a word */", "There is no comment `/* */`."),
        ("print -→9223372036854775808;", "Write `-9223372036854775807 - 1`."),
        ("print →9223372036854775808;", "a number is at most 9223372036854775807"),
        ("print 1→, 2;", "`print` takes one value."),
        ("print a.get(1)→, 2;", "`print` takes one value."),
        ("if (a.get(1) →= 3) { }", "Compare by `==`."),
        ("var →bool x = 0;", "There is no type `bool`", ": T2"),
        ("var →string x = 0;", "Write `text`, which has at most 32 bytes.", ": T2"),
        ("print →true;", "Write 1 for true and 0 for false.", ": T2"),
        ("while (1) { →break; }", "There is no `break`.", ": T2"),
        ("→int i = 0;", "A local begins with `var` and its type."),
        ("Box →b = a;", "Write `var Box b = ..;`."),
        ("print gr→\N{LATIN SMALL LETTER O WITH DIAERESIS}sse;", "`\N{LATIN SMALL LETTER O WITH DIAERESIS}` is no letter of the language."),
        ("var i →= 0;", "Write `var int i = ..;`."),
        ("var int i→;", "Each local has a first value"),
        ("print 1 →^ 2;", "There are no operations on bits."),
        ("print 1 ==→= 1;", "There is no `===`."),
        ("print 1 < 2 →< 3;", "Two comparisons can't stand side by side."),
        ("print 0→x10;", "A number has decimal digits alone."),
        ("print 1→_000;", "begins with `_`"),
        ("var int x→: 3;", "There is no `:`."),
        ("if →1 { print 1; }", "Behind `if` stands a condition in parentheses."),
        ("if (1) →print 1;", "Braces stand behind a condition"),
        ("→return 1;", "`return` stands in methods alone."),
        ("print →this;", "`this` stands in methods alone."),
        ("print self.n→;", "There is no `self`."),
        ("print a.n→;", "a field is read and written through `this` alone"),
        ("a.n →= 3;", "a field is read and written through `this` alone"),
        ("print a.get(1) →print 2;", "A statement ends with `;`"),
        ("print a.get(1)", "A statement ends with `;`"),
        ("retrun →1;", "No statement begins with `retrun`."),
        ("While →(1) { }", "`While` isn't the keyword"),
        ("print get→(1);", "A call has an object before its method."),
        ("switch →(1) { }", "There is no `switch`."),
        ("print new Box→;", "Write `new Box()`."),
        ("→;", "There is no empty statement."),
        ("→{ print 1; }", "Braces stand behind `if`, `else` and `while` alone."),
        ("→else { }", "`else` stands behind the braces of an `if` alone."),
        ("print 1; →tx { }", "A `}` is missing before `tx`."),
        ("var int →client = 0;", "`client` is a keyword"),
        ("print a.get(1→;", "No script goes on with `;` here.", "Here may stand `)`, `,`"),
        ("print a.get(1 →> 0);", "There is no `>`."),
        (f"print a.get({'1 + ' * 30}1 →+ 1 + 1);", "at most 32 deep"),
        ("print →null;", "The types differ", ": T3"),
        ("print a.get(→null);", "The types differ", ": T3"),
        ("print a.→get();", "another number of parameters", ": T4"),
        ("print a.→got(1);", "What stands before the point has no method `got`", ": T2"),
        ("print →b.get(1);", "`b` isn't declared here", ": T2"),
        ("var →Bag b = null;", "There is no class `Bag`.", ": T2"),
        ("print →NULL;", "A reference that leads nowhere is `null`.", ": T2"),
    ],
    "return this.n;": [
        ("→print 1;", "`print` stands in transactions alone."),
        ("return→;", "Write `return 0;`."),
        ("this.n +→= 1;", "There is no `+=`"),
        ("return this.n; →method int f() { return 0; }", "A `}` is missing before `method`."),
    ],
    "int n;": [
        ("int n →= 5;", "A field of a new object is 0, the empty text or `null`"),
        ("int n→, m;", "Each field is declared by itself."),
        ("int n; int →n;", "declared twice", ": T1"),
        ("public →int n;", "A member begins with its type or with `method`"),
        ("int n; void f→() { }", "there is no `void`"),
        ("int n; method →void f() { }", "There is no `void`", ": T2"),
        ("int n; int f→() { return 0; }", "Write `method int f(..)`."),
        ("int n; method f→() { return 0; }", "A method has the type of its result before its name."),
        ("int n; method int f(k→) { return 0; }", "A parameter has its type before its name."),
        ("int n; Box→() { }", "There are no constructors"),
        ("int n; method int f(" + ", ".join(f"int k{n}" for n in range(8)) + "→, int k8) { return 0; }", "at most 8 parameters"),
        ("int n; List<int→> l;", "No class has types as parameters."),
        ("int n; →var int m;", "In a class stand fields and methods."),
        ("int n\n    →int m;", "A field ends with `;`."),
        ("".join(f"int n{n}; " for n in range(32)) + "→int n;", "at most 32 fields"),
    ],
    "\n}": [
        ("\n    →int m;\n}", "all fields stand before the methods"),
        ("\n    →int f() { return 0; }\n}", "Write `method int f(..)`."),
        ("\n}→;", "No `;` stands behind a brace."),
        ("\n}\n→}", "This `}` closes nothing."),
        ("".join(f"\n    method int m{n}() {{ return 0; }}" for n in range(63)) + " →method int last() { return 0; }\n}", "at most 64 methods"),
    ],
    "setup\nfree class Box {": [
        ("→Setup\nfree class Box {", "`Setup` isn't the keyword"),
        ("→free class Box {", "A script that makes a store begins with `setup`."),
        ("setup\n→setup\nfree class Box {", "`setup` stands once"),
        ("→\N{BYTE ORDER MARK}setup\nfree class Box {", "begins with a byte-order mark"),
        ("setup→\N{NO-BREAK SPACE}\nfree class Box {", "A no-break space stands here."),
        ("setup\n→class Box {", "A class begins with `free` or `part`."),
        ("setup\nfree class Box →extends Bag {", "inherits from none"),
        ("setup\n" + "".join(f"free class Bag{n} {{ }} " for n in range(256)) + "→free class Box {", "at most 256 classes"),
    ],
    "root a = new Box();": [
        ("root Box →a = new Box();", "Write `root a = new Box();`."),
        ("root a = →Box();", "A root begins as `new`"),
        ("root a = new Box→;", "Write `new Box()`."),
        ("→Box a = new Box();", "A root begins with `root`."),
        ("root a = new →text();", "A root is an object", ": T5"),
        ("root a = new →Bax();", "There is no class `Bax`.", ": T2"),
        ("root a = new Box();\n→free class Bag { }", "All classes stand before the roots."),
    ],
    "}\nroot": [("→root", "A `}` is missing before `root`.")],
    "client 1 tx {": [
        ("client →0 tx {", "here stands 1"),
        ("client →2 tx {", "here stands 1"),
        ("client 1 tx { } client →1 tx {", "here stands 2"),
        ("→Client 1 tx {", "`Client` isn't the keyword"),
        ("→tx {", "Put `client 1` before the first of them."),
        ("client 1 tx →a.get(1); tx {", "Behind `tx` stand statements in braces."),
        ("client 1 →a.get(1); tx {", "Statements stand in transactions."),
        ("client 1 →{", "Braces stand behind `tx`"),
        ("client 1 →transaction {", "The items of a client are"),
        ("client 1 →free class Bag { } tx {", "Classes and roots stand in the setup"),
        ("client 1 upgrade →class Box { } tx {", "Behind `upgrade` stand classes in braces."),
        ("client 1 upgrade { →free class Box { } } tx {", "A class keeps its kind."),
        ("client 1 upgrade { class Box { int n→; } } tx {", "Write `int n = old.n;`"),
        ("client 1 upgrade { class Box { int n = →this.n; } } tx {", "Write `old.` before an old field's name."),
        ("client 1 upgrade { class Box { int n = →old.m; } } tx {", "worked out from ints", ": O2"),
        ('client 1 upgrade { class Box { int n = →"six"; } } tx {', "worked out from ints", ": O2"),
        ("client 1 upgrade { class Box { text t = →old.n; } } tx {", "The new value of a text field is a text", ": O2"),
        ('client 1 upgrade { class Box { text t = "six" →+ "seven"; } } tx {', "In an upgrade a text stands alone"),
        ('client 1 upgrade { class Box { text t = (→"six"); } } tx {', "In an upgrade a text stands alone"),
        ("client 1 upgrade { class Box { } } client 2 →upgrade { } tx {", "All upgrades of a script stand in one client."),
    ],
    "1); }\n": [
        ("1);→", "The script ends too early"),
        ("1); }\nschedule s1 →* 5", "it stands as often as it is to happen"),
        ("1); }\nschedule →S1", "events have small letters", ": T9"),
        ("1); }\nschedule s1→, s1", "Between events stand blanks alone."),
        ("1); }\nschedule s →1", "An event and its first number are one word."),
        ("1); }\nschedule s1 →tx { }", "The schedule is the last part of a script."),
        ("1); }\nschedule →s2", "`s2` is no event", ": T9"),
    ],
}  # fmt: skip

# Upgrades behind which something else breaks a rule, with an arrow before what is told of it; and what has to be said.
BREAKING = [
    ("""setup
free class Box { int n; method int get() { return this.n; } }
root a = new Box();
client 1 tx { }
tx { print a.→get(); }
upgrade { class Box { int n = old.n; method int got() { return this.n; } } }
""", "With this upgrade applied, transaction 1.2 breaks T2:", "has no method `get`"),
    ("""setup
free class Box { int n; method int get() { return this.n; } }
free class Lid { Box box; method int see(int k) { return this.box.→get(); } }
root a = new Lid();
client 1 tx { print a.see(1); }
upgrade { class Box { int n = old.n; method int get(int k) { return k; } } }
""", "With this upgrade applied, the method `see` of class `Lid` breaks T4:"),
    ("""setup
part class Tag { int n; method int get() { return this.n; } }
free class Box { Tag tag; method int get() { return this.tag.get(); } }
root a = new Box();
client 1 upgrade { class Tag { int n = old.n + 1; method int get() { return this.n; } method int set(int k) { this.n = k; return k; } } }
client 2 tx { print 1; print a.→get(); }
client 3 tx { print 1; }
""".replace("client 2", "upgrade { class Box { Tag tag = old.tag; method Box get() { return this; } } } client 2"), "transaction 2.1 breaks T3:"),
]  # fmt: skip

# A store's setup, and a script for it whose second transaction an upgrade breaks.
STORED = ("setup free class Box { int n; method int get() { return this.n; } } root a = new Box();", """client 1
tx { print 1; }
tx { print a.get(); }
tx { print 3; }
upgrade { class Box { int n = old.n; } }
""", "With this upgrade applied, transaction 1.2 breaks a rule.")  # fmt: skip

# Scripts with several faults; of each line and column the ones that --all tells; and what it says besides.
SEVERAL = [
    ("""setup
free class Box { int n; method int get(int k) { return this.n →> 0; } }
root a = new Box();
client 1
tx { print →b.get(1); print c.get(1); }
tx { i+→+; }
tx { print a.get(1); }
upgrade { class Box { int n = →old.m; method int get(int k) { return →l; } } }
schedule s1 →r0 →s2.1 s1
""",),
    ("""setup
free class Box { int n; →Bag bag; method int get(int k) { return this.n; } }
root a = new Box();
client 1 tx { print b.get(1); }
""", "what depends on the last fault that was found wasn't looked at"),
]  # fmt: skip
