#!/usr/bin/env python3
"""Times the program on large files.

    python3 tools/measure.py [WORD]

prints a line for each case, or for each whose name has the word: seconds, the most memory that was in use, and how the answer
begins. The program must have been built (`rt ci`); where `RAG` names another one, that is timed.
"""
import os
import subprocess
import sys
import tempfile
import time

TOP = os.path.dirname(os.path.dirname(os.path.abspath(__file__)))
PROGRAM = os.environ.get("RAG", os.path.join(TOP, "crates", "rag", "out", "rag"))
LONGEST = 16777216
FIRST = {"g.ast": b"N;", "a.jrag": b"aspect A { syn int N.v() = 5; }", "t.tree": b"N()", "q.txt": b"@0.v()"}


ASPECT = b"aspect A { syn int N.v() = "


def repeated(part, times, front=b""):
    """The front and the part so many times, in pieces: what this program holds would count as the child's."""
    yield front
    many = 4096
    for _ in range(times // many):
        yield part * many
    yield part * (times % many)


def filled(part, front=b""):
    return repeated(part, (LONGEST - len(front)) // len(part), front)


def attributes(count):
    yield b"aspect A {\n"
    for number in range(count):
        yield b"syn int N.v%d() = %d;\n" % (number, number)
    yield b"}\n"


def chained(count):
    yield b"aspect A {\n"
    for number in range(count - 1):
        yield b"syn int N.v%d() = v%d() + 1;\n" % (number, number + 1)
    yield b"syn int N.v%d() = 1;\n}\n" % (count - 1)


def halved():
    """A root above a tree in which each node but a leaf has two children: 65,536 nodes in all."""
    rules = [b"A0 ::= A1;\n"] + [b"A%d ::= x:A%d y:A%d;\n" % (k, k + 1, k + 1) for k in range(1, 16)]
    tree = b"A16(1)"
    for k in range(15, 0, -1):
        tree = b"A%d(%s, %s)" % (k, tree, tree)
    sums = [b"syn int A%d.s() = getx().s() + gety().s();\n" % k for k in range(1, 16)]
    return {
        "g.ast": rules + [b"A16 ::= <V:int>;\n"],
        "a.jrag": [b"aspect A {\nsyn int A0.s() = getA1().s();\n"] + sums + [b"syn int A16.s() = getV();\n}\n"],
        "t.tree": [b"A0(%s)" % tree],
        "q.txt": [b"@0.s()\n"],
    }


def nested():
    """As many levels as there may be classes, and a sum over all of them."""
    levels = range(255)
    return {
        "g.ast": [b"C%d ::= c:C%d <V:int>;\n" % (k, k + 1) for k in levels] + [b"C255 ::= <V:int>;\n"],
        "a.jrag": [b"aspect A {\n"] + [b"syn int C%d.s() = getc().s() + getV();\n" % k for k in levels] + [b"syn int C255.s() = getV();\n}\n"],
        "t.tree": [b"C%d(" % k for k in levels] + [b"C255(1)"] + [b", 1)" for k in levels],
        "q.txt": [b"@0.s()\n"],
    }


COUNTED = [b"aspect A { syn int L.d() = hasL() ? getL().d() + 1 : 0; }"]


def demanded(count):
    """A chain of so many nodes, of which each demands the value of the one below it."""
    return {"g.ast": [b"L ::= [L];"], "a.jrag": COUNTED, "t.tree": deep(count), "q.txt": [b"@0.d()\n"]}


def asked(count):
    """The same, where each node is asked for, the last one first."""
    return {**demanded(count), "q.txt": (b"@%d.d()\n" % number for number in reversed(range(count)))}


def inherited(count):
    """A chain of so many nodes, of which the last has an attribute to which the first gives the value."""
    aspects = [b"aspect A { inh int L.d(); eq R.getL().d() = 1; }"]
    tree = [b"R(", *deep(count - 1), b")"]
    return {"g.ast": [b"R ::= L; L ::= [L];"], "a.jrag": aspects, "t.tree": tree, "q.txt": [b"@%d.d()\n" % (count - 1)]}


def counting(count):
    """An attribute that calls itself with one argument after the other, down from this one."""
    return {"a.jrag": [b"aspect A { syn int N.d(int n) = n == 0 ? 0 : d(n - 1) + 1; syn int N.v() = d(%d); }" % count]}


REACH = b"""aspect Reach {
  inh Node Node.at(int i);
  eq Graph.getNode().at(int i) = getNode(i);
  syn Set<String> Node.reach() circular [empty] = each(e : getEdgeList() | union(single(at(e.getTo()).getName()), at(e.getTo()).reach()));
}
"""


def reached(count, size):
    """A graph of so many nodes in rings of this size, in which each node is asked for what it reaches."""
    def nodes():
        yield b"Graph(["
        for k in range(count):
            to = k - k % size + (k + 1) % size
            yield b'%sNode("n%d", [Edge(%d)])' % (b", " if k else b"", k, to)
        yield b"])"
    return {
        "g.ast": [b"Graph ::= Node*; Node ::= <Name> Edge*; Edge ::= <To:int>;"],
        "a.jrag": [REACH],
        "t.tree": nodes(),
        "q.txt": (b"@%d.reach()\n" % (2 * k + 1) for k in range(count)),
    }


FIRST_SETS = b"""aspect Names {
  inh Rule Sym.at(int i);
  eq Grammar.getRule().at(int i) = getRule(i);
}
aspect Sets {
  syn boolean Rule.nullable() circular [false] = any(p : getProdList() | p.nullable());
  syn boolean Prod.nullable() circular [false] = all(s : getSymList() | s.nullable());
  syn boolean Sym.nullable() circular [false] = false;
  eq Nonterm.nullable() = at(getTo()).nullable();
  syn Set<String> Rule.first() circular [empty] = each(p : getProdList() | p.first(0));
  syn Set<String> Prod.first(int i) circular [empty] = i < getNumSym()
    ? union(getSym(i).first(), getSym(i).nullable() ? first(i + 1) : empty) : empty;
  syn Set<String> Sym.first() circular [empty] = empty;
  eq Term.first() = single(getName());
  eq Nonterm.first() = at(getTo()).first();
}
"""


def ruled(count):
    """A grammar of so many rules, of which each is asked for its first set and whether it derives nothing."""
    def rules():
        yield b"Grammar(["
        for k in range(count):
            ends = b", Prod([])" if k % 3 == 0 else b""
            calls = b"Nonterm(%d), Nonterm(%d)" % ((k + 1) % count, (2 * k + 1) % count)
            yield b'%sRule([Prod([%s]), Prod([Term("t%d")])%s])' % (b", " if k else b"", calls, k % 7, ends)
        yield b"])"
    def queries():
        node = 1
        for k in range(count):
            yield b"@%d.first()\n@%d.nullable()\n" % (node, node)
            node += 7 if k % 3 == 0 else 6
    return {
        "g.ast": [b"Grammar ::= Rule*; Rule ::= Prod*; Prod ::= Sym*; abstract Sym; Nonterm : Sym ::= <To:int>; Term : Sym ::= <Name>;"],
        "a.jrag": [FIRST_SETS],
        "t.tree": rules(),
        "q.txt": queries(),
    }


def full():
    """Five attributes at each of 60,000 nodes."""
    calls = b"".join(b"syn int L.%c() = %c(); " % (a, b) for a, b in zip(b"efg", b"fgh"))
    aspects = b"aspect A { syn int L.d() = e() + (hasL() ? getL().d() : 0); " + calls + b"syn int L.h() = 1; }"
    return {**demanded(60000), "a.jrag": [aspects]}


def chain(count, end=b""):
    """So many classes, each of which has the next as its superclass; the last has what `end` says."""
    yield b"".join(b"C%d:C%d;" % (number, number + 1) for number in range(count - 1))
    yield b"C%d%s;" % (count - 1, end)


def few_classes():
    """256 classes among blanks and comments."""
    blank = b" " * 32000 + b"/*" + b"*" * 32000 + b"*/\n"
    for number in range(256):
        yield b"C%d ::= a:C0 [b:C1] c:C2* <d:int>;" % number
        yield blank


def components(count):
    yield b"A::="
    yield b"".join(b"c%d:A " % number for number in range(count))
    yield b";"


def flat(count):
    """A tree of so many nodes, of which all but the root stand in one list."""
    yield b"R([N(0)"
    for number in range(1, count - 1):
        yield b", N(%d)" % number
    yield b"])\n"


def deep(count):
    """A tree of so many nodes, each but the last with the next below it."""
    yield from repeated(b"L([", count - 1)
    yield b"L([])"
    yield from repeated(b"])", count - 1)


def texts(count):
    """A tree of so many nodes, each but the root with a text of its own."""
    yield b'R([N("text 0")'
    for number in range(1, count - 1):
        yield b', N("text %d")' % number
    yield b"])\n"


# Forms over a list of nodes, each of which demands what isn't there yet; the number is that of the last node.
OVER_LISTS = [
    ("all", b"syn boolean N.p() = true; syn boolean R.v() = all(x : getNList() | x.p());"),
    ("first finds the last", b"syn boolean N.is(int n) = getV() == n; syn N R.v() = first(x : getNList() | x.is(%(last)d));"),
    ("a set at each", b"syn Set<N> N.s() = single(this); syn boolean R.v() = all(x : getNList() | size(x.s()) == 1);"),
    ("each joins a set at each", b"syn Set<N> N.s() = single(this); syn int R.v() = size(each(x : getNList() | x.s()));"),
    ("all, circular", b"syn boolean N.p() circular [false] = getV() >= 0 || p(); syn boolean R.v() circular [false] = all(x : getNList() | x.p());"),
    ("each, circular, with a target that isn't", b"syn N N.at() = this; syn Set<N> N.s() circular [empty] = union(single(this), s()); "
     b"syn Set<N> R.t() circular [empty] = each(x : getNList() | x.at().s()); syn int R.v() = size(t());"),
]


def over_list(count, items):
    """A form over a list of so many nodes."""
    aspects = [b"aspect A { ", items.replace(b"%(last)d", b"%d" % (count - 1)), b" }"]
    return {"g.ast": [b"R ::= N*; N ::= <V:int>;"], "a.jrag": aspects, "t.tree": flat(count + 1)}

SAMPLE = b"""Grammar ::= Rule*;
Rule ::= <Name> Prod*;
Prod ::= Sym*;
abstract Sym ::= <Name>;
Nonterm : Sym;
Term : Sym;
"""

SAMPLE_NAMES = b"""aspect Names {
  inh Grammar Rule.grammar();
  inh boolean Rule.isStart();
  inh Rule Prod.owner();
  inh Rule Sym.lookup(String n);
  inh Prod Sym.prod();
  inh int Sym.index();
  eq Grammar.getRule().grammar() = this;
  eq Grammar.getRule(int i).isStart() = i == 0;
  eq Grammar.getRule().lookup(String n) = first(r : getRuleList() | r.getName() == n);
  eq Rule.getProd().owner() = this;
  eq Prod.getSym().prod() = this;
  eq Prod.getSym(int i).index() = i;
  syn Rule Sym.rule() = null;
  eq Nonterm.rule() = lookup(getName());
  coll Set<Nonterm> Rule.uses() [empty] with add root Grammar;
  Nonterm contributes this to Rule.uses() for rule();
}
"""

SAMPLE_SETS = b"""aspect Sets {
  syn boolean Rule.nullable() circular [false] = any(p : getProdList() | p.nullable());
  syn boolean Prod.nullable() circular [false] = all(s : getSymList() | s.nullable());
  syn boolean Sym.nullable() circular [false] = false;
  eq Nonterm.nullable() = rule().nullable();
  syn Set<String> Rule.first() circular [empty] = each(p : getProdList() | p.first(0));
  syn Set<String> Prod.first(int i) circular [empty] = i < getNumSym()
    ? union(getSym(i).first(), getSym(i).nullable() ? first(i + 1) : empty) : empty;
  syn Set<String> Sym.first() circular [empty] = single(getName());
  eq Nonterm.first() = rule().first();
  syn boolean Prod.rest(int i) circular [false] = i < getNumSym()
    ? getSym(i).nullable() && rest(i + 1) : true;
  syn Set<String> Prod.after(int i) circular [empty] =
    union(first(i), rest(i) ? owner().follow() : empty);
  syn Set<String> Rule.follow() circular [empty] = union(isStart() ? single("$") : empty,
    each(s : uses() | s.prod().after(s.index() + 1)));
}
aspect Totals {
  coll int Grammar.nullables() [0] with sum root Grammar;
  coll int Grammar.firsts() [0] with sum root Grammar;
  coll int Grammar.follows() [0] with sum root Grammar;
  Rule contributes 1 when nullable() to Grammar.nullables() for grammar();
  Rule contributes size(first()) to Grammar.firsts() for grammar();
  Rule contributes size(follow()) to Grammar.follows() for grammar();
}
"""

# Whether each name of a rule has been looked up, which takes as many steps as there are rules in front of it.
LOOKED_UP = b"""aspect LookedUp {
  syn boolean Grammar.looked() = all(r : getRuleList() | all(p : r.getProdList() | all(s : p.getSymList() | s.rule() == null || true)));
}
"""


def sample(count, aspects, queries):
    """A grammar of so many generated rules, with these aspects of the sample and queries for these attributes of the root, or for those of each rule."""
    def rules():
        yield b"Grammar(["
        for k in range(count):
            ends = b", Prod([])" if k % 3 == 0 else b""
            calls = b'Nonterm("n%d"), Nonterm("n%d")' % ((k + 1) % count, (2 * k + 1) % count)
            yield b'%sRule("n%d", [Prod([%s]), Prod([Term("t%d")])%s])' % (b", " if k else b"", k, calls, k % 7, ends)
        yield b"])"
    def asked():
        yield from (b"@0.%s()\n" % name for name in queries if name != b"uses")
        node = 1
        for k in range(count if b"uses" in queries else 0):
            yield b"@%d.uses()\n" % node
            node += 7 if k % 3 == 0 else 6
    return {"g.ast": [SAMPLE], "a.jrag": aspects, "t.tree": rules(), "q.txt": asked()}


TOTALS = [b"nullables", b"firsts", b"follows"]

# Collections over a list: of the root, and at each node.
COLLECTED = [
    ("one", b"inh R N.root(); eq R.getN().root() = this; coll int R.c() [0] with sum; N contributes getV() to R.c() for root(); syn int R.v() = c();"),
    ("one set of all nodes", b"inh R N.root(); eq R.getN().root() = this; coll Set<N> R.c() [empty]; N contributes this to R.c() for root(); syn int R.v() = size(c());"),
    ("one at each node, all asked for", b"coll int N.c() [0] with sum; N contributes getV() to N.c() for this; syn boolean R.v() = all(x : getNList() | x.c() >= 0);"),
]


def rooted(count, root):
    """A collection at each of so many nested nodes, of which each is asked for what lies below its root."""
    items = b"syn int L.sum() = c() + (hasL() ? getL().sum() : 0); coll int L.c() [0] with sum%s; L contributes 1 to L.c() for this;" % root
    return {"g.ast": [b"R ::= L; L ::= [L];"], "a.jrag": [b"aspect A { syn int R.v() = getL().sum(); ", items, b" }"], "t.tree": enclosing(count)}


def climbed(count):
    """An inherited attribute at each of so many nested nodes."""
    aspects = b"aspect A { inh int L.top(); eq R.getL().top() = 7; syn int R.v() = getL().sum(); syn int L.sum() = top() + (hasL() ? getL().sum() : 0); }"
    yield "g.ast", [b"R ::= L; L ::= [L];"]
    yield "a.jrag", [aspects]
    yield "t.tree", enclosing(count)


def enclosing(count):
    yield b"R("
    yield from deep(count)
    yield b")"


def looping(count):
    """A loop at the end of a chain of so many nodes, at each of which it is asked for."""
    yield "g.ast", [b"L ::= [L];"]
    yield "a.jrag", [b"aspect A { syn int L.c() = hasL() ? getL().c() : c(); }"]
    yield "t.tree", deep(count)
    yield "q.txt", (b"@%d.c()\n" % number for number in range(count))


def nested_components(count, ring_first):
    """A ring of so many circular instances, on which each of as many others stands, one on the other with one between that isn't circular: that is met
    before the ring is gone round, or behind it."""
    items = b"x(0) || n(m)" if not ring_first else b"y(m) || x(0)"
    aspects = (
        b"aspect A { syn boolean N.x(int i) circular [false] = x(i == %d ? 0 : i + 1); syn boolean N.a(int m) circular [false] = %s; "
        b"syn boolean N.y(int m) circular [false] = n(m); syn boolean N.n(int m) = m == 0 ? true : a(m - 1); syn boolean N.v() = a(%d); }"
    )
    yield "a.jrag", [aspects % (count - 1, items, count)]


def enclosed(front, part, end):
    """A file of 16 MiB, or a little less: the part over and over between the front and the end."""
    yield from repeated(part, (LONGEST - len(front) - len(end)) // len(part), front)
    yield end


FORMS = [
    ("flat", b"R ::= N*; N ::= <V:int>;", flat),
    ("nested", b"L ::= [L];", deep),
    ("with texts", b"R ::= N*; N ::= <S>;", texts),
]

# What `rag tree` is timed on.
TREES = [(f"tree, {name}: {count:,} nodes", {"g.ast": [grammar], "t.tree": make(count)}) for name, grammar, make in FORMS for count in [1000, 8000, 65536]]
TREES += [
    ("tree: N( all over", {"t.tree": filled(b"N(")}),
    ("tree: 16 MiB of nodes in a list", {"g.ast": [b"R ::= N*; N;"], "t.tree": enclosed(b"R([", b"N(),", b"N()])")}),
    ("tree: a text of 16 MiB", {"g.ast": [b"R ::= <S>;"], "t.tree": enclosed(b'R("', b"a", b'")')}),
    ("tree: an integer of 16 MiB", {"g.ast": [b"R ::= <I:int>;"], "t.tree": enclosed(b"R(", b"7", b")")}),
    ("tree: 65,537 nested nodes", {"g.ast": [b"L ::= [L];"], "t.tree": deep(65537)}),
]

CASES = [
    ("the first example", {}),
    ("grammar: blanks", {"g.ast": filled(b" ")}),
    ("grammar: ;", {"g.ast": filled(b";")}),
    ("grammar: (", {"g.ast": filled(b"(")}),
    ("grammar: :x", {"g.ast": filled(b":x")}),
    ("grammar: abcdefg;", {"g.ast": filled(b"abcdefg;")}),
    ("grammar: /*", {"g.ast": filled(b"/*")}),
    ("grammar: 256 classes, blanks and comments", {"g.ast": few_classes()}),
    ("grammar: a chain of 256 superclasses", {"g.ast": chain(256)}),
    ("grammar: a chain of 900,000 superclasses", {"g.ast": chain(900000)}),
    ("grammar: a loop of 900,000 superclasses", {"g.ast": chain(900000, b":C0")}),
    ("grammar: A; all over", {"g.ast": filled(b"A;")}),
    ("grammar: a name of 16 MiB", {"g.ast": [b"A" * (LONGEST - 1), b";"]}),
    ("grammar: 1,400,000 components of a class", {"g.ast": components(1400000)}),
    ("aspects: an expression of (", {"a.jrag": filled(b"(", ASPECT)}),
    ("aspects: an expression of -", {"a.jrag": filled(b"-", ASPECT)}),
    ("aspects: an expression of v().", {"a.jrag": filled(b"v().", ASPECT)}),
    ("aspects: empty ones", {"a.jrag": filled(b"aspect A {}\n")}),
    ("aspects: items", {"a.jrag": enclosed(b"aspect A {\n", b"syn int N.v() = 1;\n", b"}\n")}),
    ("aspects: equations with texts", {"a.jrag": enclosed(b"aspect A {\n", b'eq N.v(int i) = f("a", i + 1);\n', b"}\n")}),
    ("tree: N(", {"t.tree": filled(b"N(")}),
    ("tree: N( of a class with itself as its child", {"g.ast": [b"N ::= N;"], "t.tree": filled(b"N(")}),
    ("tree: 65,536 nodes, the sum of 32,768 tokens", halved()),
    ("tree: 256 levels, the sum of 256 tokens", nested()),
    ("1,024 attributes, each calls the next", {"a.jrag": chained(1024), "q.txt": [b"@0.v0()"]}),
    *[(f"demand: a chain of {count:,} nodes", demanded(count)) for count in [1000, 4000, 16000, 32000, 50001, 64000]],
    *[(f"demand: {count:,} nodes, each asked for", asked(count)) for count in [1000, 4000, 16000, 32000, 65536]],
    *[(f"inherited: {count - 1:,} ancestors", inherited(count)) for count in [1000, 8000, 65536]],
    *[(f"parameters: d({count:,})", counting(count)) for count in [25000, 50000, 100000, 200000]],
    *[(f"over a list of {count:,}: {name}", over_list(count, items)) for name, items in OVER_LISTS for count in [4000, 16000, 60000]],
    *[(f"inherited at each of {count:,} nested nodes", dict(climbed(count))) for count in [4000, 16000, 60000]],
    *[(f"a loop asked for at each of {count:,} nodes", dict(looping(count))) for count in [4000, 16000, 60000]],
    *[(f"circular: {count:,} nested over a ring of as many", dict(nested_components(count, False))) for count in [4000, 16000, 60000]],
    *[(f"circular: {count:,} nested, behind a ring of as many", dict(nested_components(count, True))) for count in [4000, 16000, 60000]],
    ("demand: more instances than cells", full()),
    *[(f"circular: reachability over a ring of {count:,}", reached(count, count)) for count in [250, 500, 1000]],
    *[(f"circular: reachability over {count:,} rings of 16", reached(16 * count, 16)) for count in [62, 125, 250, 1000]],
    *[(f"circular: first sets of {count:,} rules", ruled(count)) for count in [250, 500, 1000]],
    *[(f"sample: totals of {count:,} rules", sample(count, [SAMPLE_NAMES, SAMPLE_SETS], TOTALS)) for count in [256, 512, 1024]],
    *[(f"sample: look-up by name alone, {count:,} rules", sample(count, [SAMPLE_NAMES, LOOKED_UP], [b"looked"])) for count in [256, 512, 1024]],
    *[(f"sample: uses of each of {count:,} rules", sample(count, [SAMPLE_NAMES], [b"uses"])) for count in [256, 512, 1024]],
    *[(f"sample: uses, each name looked up before, {count:,} rules", sample(count, [SAMPLE_NAMES, LOOKED_UP], [b"looked", b"uses"])) for count in [256, 512, 1024]],
    *[(f"collections over {count:,} nodes: {name}", over_list(count, items)) for name, items in COLLECTED for count in [4000, 16000, 60000]],
    *[(f"collections at {count:,} nested nodes, without a root class", rooted(count, b"")) for count in [4000, 16000, 60000]],
    *[(f"collections at {count:,} nested nodes, the root above them", rooted(count, b" root R")) for count in [4000, 16000, 60000]],
    *[(f"collections at {count:,} nested nodes, each its own root", rooted(count, b" root L")) for count in [500, 1000, 2000]],
    ("queries: line feeds", {"q.txt": filled(b"\n")}),
    ("queries: 65,536", {"q.txt": repeated(b"@0.v()\n", 65536)}),
    ("1,024 attributes, 65,536 queries for the last", {"a.jrag": attributes(1024), "q.txt": repeated(b"@0.v1023()\n", 65536)}),
]


def dispatched(classes, count):
    """A chain of so many superclasses, and so many attributes with an equation in each of them."""
    yield b"aspect A {\n"
    for number in range(count):
        yield b"syn int C%d.v%d() = 0;\n" % (classes - 1, number)
        yield b"".join(b"eq C%d.v%d() = %d;\n" % (k, number, k) for k in range(classes - 1))
    yield b"}\n"


def created(classes, count, inherited):
    """So many higher-order attributes of all of so many classes, which make roots of each of them, and inherited ones that nothing covers there."""
    yield b"aspect A {\n"
    for number in range(inherited):
        yield b"inh int Z.y%d();\n" % number
    for number in range(count):
        yield b"syn nta C%d C%d.v%d() = new C%d();\n" % (classes - 1, classes - 1, number, number % classes)
    yield b"}\n"


def typed(count):
    """So many attributes, each the sum of a hundred calls of the first: an expression of 399 tokens."""
    yield b"aspect A {\nsyn int N.v0() = 1;\n"
    total = b" + ".join([b"v0()"] * 100)
    for number in range(1, count):
        yield b"syn int N.v%d() = %s;\n" % (number, total)
    yield b"}\n"


# What `rag check` is timed on.
CHECKS = [
    ("check: the first example", {}),
    ("check: 1,024 attributes, 262,144 equations", {"g.ast": chain(256), "a.jrag": dispatched(256, 1024)}),
    ("check: 256 higher-order attributes, 255 classes", {"g.ast": chain(255, b"; Z"), "a.jrag": created(255, 256, 0)}),
    ("check: 512 higher-order attributes, 255 classes", {"g.ast": chain(255, b"; Z"), "a.jrag": created(255, 512, 0)}),
    ("check: 1,024 higher-order attributes, 255 classes", {"g.ast": chain(255, b"; Z"), "a.jrag": created(255, 1024, 0)}),
    ("check: 128 of them, 128 inherited names", {"g.ast": chain(255, b"; Z"), "a.jrag": created(255, 128, 128)}),
    ("check: 256 of them, 256 inherited names", {"g.ast": chain(255, b"; Z"), "a.jrag": created(255, 256, 256)}),
    ("check: 512 of them, 512 inherited names", {"g.ast": chain(255, b"; Z"), "a.jrag": created(255, 512, 512)}),
    ("check: 1,024 expressions of 399 tokens", {"a.jrag": typed(1024)}),
    ("check: 883,010 attributes of one name", {"a.jrag": enclosed(b"aspect A {\n", b"syn int N.v() = 1;\n", b"}\n")}),
    ("check: 1,024 attributes, each calls the next", {"a.jrag": chained(1024)}),
]


def measure(folder, name, files, words):
    for file, content in FIRST.items():
        with open(os.path.join(folder, file), "wb") as out:
            out.writelines(files.get(file, [content]))
    start = time.monotonic()
    with tempfile.TemporaryFile() as answer:
        child = subprocess.Popen([PROGRAM, *words], cwd=folder, stdout=answer)
        _, status, usage = os.wait4(child.pid, 0)
        seconds = time.monotonic() - start
        child.returncode = os.waitstatus_to_exitcode(status)
        answer.seek(0)
        first = answer.readline(60).decode(errors="replace").strip()
    print(f"{name:48} {seconds:7.2f} s {usage.ru_maxrss // 1024:6} MB  {child.returncode} {first}")


def main(word):
    words = [(CASES, ["run", *FIRST]), (TREES, ["tree", "g.ast", "t.tree"]), (CHECKS, ["check", "g.ast", "a.jrag"])]
    with tempfile.TemporaryDirectory() as folder:
        for cases, command in words:
            for name, files in cases:
                if word in name:
                    measure(folder, name, files, command)


if __name__ == "__main__":
    main(sys.argv[1] if len(sys.argv) > 1 else "")
