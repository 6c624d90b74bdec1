#!/usr/bin/env python3
"""From a grammar file to the tables that the parser reads, and to the grammar's definition.

    python3 tools/table.py [--printed] GRAMMAR-FILE CRATE

writes crates/CRATE/src/NAME_table.rt (constants), crates/CRATE/specs/NameGrammar.antt (the productions, which
contracts cite) and crates/CRATE/specs/NameClaims.antt (what is claimed of the table). Nothing here is trusted:
the check of the crate computes that the table fits the productions. With `--printed` it writes the productions
alone: those of a grammar as people write it, which needn't be LL(1).

A grammar file has lines `%token T ..` (classes of tokens, numbered from 1; 0 is the end), `%act A ..` (actions,
numbered from 1), `%start N ..` (further start symbols), comments behind `#`, and productions
`head : symbol .. | symbol ..`, where `@A` is an action. It must be LL(1): conflicts are reported.
"""
import os
import re
import sys

WIDTH = 64  # classes of tokens in a row of choices; the last place is for what derives no tokens
NO_PRODUCTION = 255


class Grammar:
    def __init__(self, path):
        self.name = os.path.basename(path).split(".")[0]
        self.tokens, self.actions, self.starts, self.heads, self.written = ["End"], [], [], [], []
        with open(path, encoding="utf-8") as file:
            for line in file:
                self.read(line.split("#")[0].rstrip())
        self.token_number = {t: i for i, t in enumerate(self.tokens)}
        self.head_number = {h: i for i, h in enumerate(self.heads)}
        self.action_number = {a: i + 1 for i, a in enumerate(self.actions)}
        self.productions = [(self.head_number[h], [self.symbol(s) for s in body]) for h, body in self.written]
        if len(self.tokens) >= WIDTH or len(self.productions) >= NO_PRODUCTION:
            sys.exit("too large a grammar")

    def read(self, line):
        words = line.split()
        if not words:
            return
        lists = {"%token": self.tokens, "%act": self.actions, "%start": self.starts}
        if words[0] in lists:
            lists[words[0]] += words[1:]
            return
        if line[0] != " ":
            head, rest = (part.strip() for part in line.split(":", 1))
            self.heads.append(head)
        else:
            head, rest = self.heads[-1], line.strip()[1:]
        for alternative in re.split(r"\s\|(?=\s|$)", " " + rest):
            self.written.append((head, alternative.split()))

    def symbol(self, word):
        if word.startswith("@"):
            return ("Action", self.action_number[word[1:]])
        if word in self.head_number:
            return ("Nonterminal", self.head_number[word])
        if word in self.token_number:
            return ("Terminal", self.token_number[word])
        sys.exit(f"unknown symbol {word}")


class Claims:
    """First, empty, follow, weights, ways and choices: all of it is tested by the check of the crate."""

    def __init__(self, grammar):
        self.productions, count = grammar.productions, len(grammar.heads)
        self.empty, self.first, self.follow = [False] * count, [set() for _ in range(count)], [set() for _ in range(count)]
        self.follow[0].add(0)
        for start in grammar.starts:
            self.follow[grammar.head_number[start]].add(0)
        while self.grow():
            pass
        self.choice, conflicts = {}, []
        for p, (head, body) in enumerate(self.productions):
            for t in self.begins(body, self.follow[head]):
                if (head, t) in self.choice:
                    conflicts.append(f"conflict: {grammar.heads[head]} at {grammar.tokens[t]}")
                self.choice[head, t] = p
        if conflicts:
            sys.exit("\n".join(conflicts))
        for p, (head, body) in enumerate(self.productions):
            if self.vanishes(body):
                self.choice[head, WIDTH - 1] = p
        self.weight = [1] * count
        for _ in range(count + 1):
            for head, body in self.productions:
                self.weight[head] = max(self.weight[head], self.cost(body) + 1)
        self.ways = self.living(count)

    def begins(self, body, behind):
        found = set()
        for kind, value in body:
            if kind == "Terminal":
                return found | {value}
            if kind == "Nonterminal":
                found |= self.first[value]
                if not self.empty[value]:
                    return found
        return found | behind

    def vanishes(self, body):
        return all(kind == "Action" or kind == "Nonterminal" and self.empty[value] for kind, value in body)

    def grow(self):
        grown = False
        for head, body in self.productions:
            if self.vanishes(body) and not self.empty[head]:
                self.empty[head] = grown = True
            parts = [(self.first[head], self.begins(body, set()))]
            parts += [(self.follow[v], self.begins(body[i + 1:], self.follow[head])) for i, (k, v) in enumerate(body) if k == "Nonterminal"]
            for known, further in parts:
                if not further <= known:
                    known |= further
                    grown = True
        return grown

    def cost(self, body):
        steps = 0
        for kind, value in body:
            if kind == "Terminal":
                return steps + 1
            steps += 1 if kind == "Action" else self.weight[value]
            if kind == "Nonterminal" and not self.empty[value]:
                return steps
        return steps

    def living(self, count):
        have, ways = set(), []
        while True:
            further = [(p, h) for p, (h, b) in enumerate(self.productions) if h not in have and all(k != "Nonterminal" or v in have for k, v in b)]
            if not further:
                break
            have.add(further[0][1])
            ways.append(further[0][0])
        if len(have) < count:
            sys.exit("a nonterminal derives nothing")
        return ways


def antt_list(items):
    return " ∷ ".join([str(item) for item in items] + ["[]"])


def numbers(sets):
    return antt_list(f"({antt_list(sorted(s))})" for s in sets)


def write_constants(grammar, claims, path):
    name, starts = grammar.name.upper(), [0]
    for _, body in grammar.productions:
        starts.append(starts[-1] + len(body))
    choices = [claims.choice.get((h, t), NO_PRODUCTION) for h in range(len(grammar.heads)) for t in range(WIDTH)]
    bodies = [
        f"    {kind}({value}), // {p}. {shown}: {word}\n"
        for p, ((_, body), (shown, words)) in enumerate(zip(grammar.productions, grammar.written))
        for (kind, value), word in reversed(list(zip(body, words)))
    ]
    used = sorted({kind for _, body in grammar.productions for kind, _ in body})
    with open(path, "w", encoding="utf-8") as file:
        file.write(f"// The table of the grammar `{grammar.name}`, written by tools/table.py. A proof shows that it fits.\n")
        file.write(f"use ll_parser::Symbol;\nuse ll_parser::Symbol::{{{', '.join(used)}}};\n\n")
        file.write(f"pub const {name}_OF: [u8; {len(grammar.productions)}] = [{', '.join(str(h) for h, _ in grammar.productions)}];\n\n")
        file.write(f"pub const {name}_STARTS: [u16; {len(starts)}] = [{', '.join(map(str, starts))}];\n\n")
        file.write(f"pub const {name}_BODIES: [Symbol; {len(bodies)}] = [\n{''.join(bodies)}];\n\n")
        file.write(f"pub const {name}_CHOICE: [u8; {len(choices)}] = [{', '.join(map(str, choices))}];\n")


def write_grammar(grammar, path):
    name = grammar.name
    with open(path, "w", encoding="utf-8") as file:
        file.write(f"-- The grammar `{name}`, from tools/{name}.grammar.\n")
        for what, items in (("Tokens", enumerate(grammar.tokens)), ("Nonterminals", enumerate(grammar.heads)), ("Actions", enumerate(grammar.actions, 1))):
            file.write(f"-- {what}: {', '.join(f'{i} {item}' for i, item in items)}\n")
        used = sorted({kind for _, body in grammar.productions for kind, _ in body}, reverse=True)
        file.write("use Rattle.std.specs.Prelude.{List, [], ◌∷◌}\n")
        file.write(f"use Rattle.ll_parser.specs.declared.symbols.Symbol.TheVariants.{{{', '.join(used)}}}\n")
        file.write("use Rattle.ll_parser.specs.Grammar.{Production}\n\n")
        file.write(f"abbrev pub {name}_grammar : List Production\n{name}_grammar =\n")
        for p, ((head, body), (shown, words)) in enumerate(zip(grammar.productions, grammar.written)):
            file.write(f"    -- {p}. {shown}: {' '.join(words)}".rstrip() + "\n")
            file.write(f"    record {{ of = {head}; body = {antt_list(f'{kind} {value}' for kind, value in body)} }} ∷\n")
        file.write("    []\n")


def write_claims(grammar, claims, path):
    name = grammar.name
    with open(path, "w", encoding="utf-8") as file:
        file.write(f"-- What is claimed of the table of `{name}`, written by tools/table.py: the check computes that it is right.\n")
        file.write("use Rattle.std.specs.Prelude.{ℕ, [], ◌∷◌, true, false}\n")
        file.write("use Rattle.ll_parser.specs.Table.{Claims, numbers, flag, number}\n\n")
        file.write(f"abbrev pub {name}_claims : (ℕ → ℕ → ℕ) → Claims\n{name}_claims choice = record {{\n")
        file.write(f"  first = numbers ({numbers(claims.first)});\n")
        file.write(f"  empty = flag ({antt_list('true' if e else 'false' for e in claims.empty)});\n")
        file.write(f"  follow = numbers ({numbers(claims.follow)});\n")
        file.write(f"  weight = number ({antt_list(claims.weight)});\n")
        file.write(f"  ways = {antt_list(claims.ways)};\n  choice = choice;\n}}\n")


def main():
    words = [word for word in sys.argv[1:] if word != "--printed"]
    grammar = Grammar(words[0])
    crate = f"crates/{words[1]}"
    title = "".join(part.capitalize() for part in grammar.name.split("_"))
    write_grammar(grammar, f"{crate}/specs/{title}Grammar.antt")
    if len(words) < len(sys.argv[1:]):
        return
    claims = Claims(grammar)
    write_constants(grammar, claims, f"{crate}/src/{grammar.name}_table.rt")
    write_claims(grammar, claims, f"{crate}/specs/{title}Claims.antt")


if __name__ == "__main__":
    main()
