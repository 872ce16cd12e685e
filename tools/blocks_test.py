"""Tries what tools/blocks.py writes of small texts, what it says of texts with a mistake, and that with --finer it writes the texts of examples/blocks as tools/refine.py does what it writes without.

    python3 tools/blocks_test.py

Status 0: all is as it should be, 1: something isn't.
"""
import glob
import os
import subprocess
import sys

TOP = os.path.dirname(os.path.dirname(os.path.abspath(__file__)))
sys.path.append(os.path.join(TOP, "tools"))
from blocks import Wrong, model_of  # noqa: E402

PART = "component p\nstate a init\nstate b\ntrans a go b\n"
# Texts, without `blocks 1`, and the models that they write, without `des 1`.
WRITTEN = [
    ("component p\ntrans a go a\n".replace("trans", "state a init\ntrans"), "component p\nstate a init\ntrans a go a\n"),
    ("event e : p.go\n" + PART, PART + "event e : p.go\n"),
    ("  # a comment\n\n" + PART + "event e alarm L fault : p.go\n", PART + "event e alarm L fault : p.go\n"),
    ("let N 2\nfor K 1 {N}\ncomponent c{K}\nstate s{K*K-1} init\nend\n", "component c1\nstate s0 init\ncomponent c2\nstate s3 init\n"),
    ("for K 1 0\ncomponent never\nend\n", ""),
    ("for K -1 1\ncomponent c{(K+3)%3}-{K/2+1}\nstate s init\nend\n", "component c2-0\nstate s init\ncomponent c0-1\nstate s init\ncomponent c1-1\nstate s init\n"),
    ("block b NAME STATE\ncomponent {NAME}\nstate {STATE} init\nend\nuse b one on\nuse b two off\n", "component one\nstate on init\ncomponent two\nstate off init\n"),
    ("block more S\nstate {S}\ntrans a to-{S} {S}\nend\ncomponent p\nstate a init\nuse more b\nuse more c\n",
     "component p\nstate a init\nstate b\nstate c\ntrans a to-b b\ntrans a to-c c\n"),
    (PART + "event e : p.go p.go q.go?\n", PART + "event e : p.go\n"),
]
# Texts with a mistake, and what is said of it.
WRONG = [
    ("", "line 1: the first line that counts should be `blocks 1`", True),
    ("blocks 2\n", "line 1: the first line that counts should be `blocks 1`", True),
    ("blocks\n", "line 1: the line should have the shape `blocks 1`, once, as the first line", True),
    ("transition a b c\n", "line 2: a line doesn't begin with transition, but with one of blocks, let, for, block, use, end, component, state, trans, event"),
    ("blocks 1\n", "line 2: `blocks 1` stands once, as the first line"),
    ("for K 1\n", "line 2: the line should have the shape `for NAME FROM TO`"),
    ("for K 1 2\n", "line 2: this `for` has no `end`"),
    ("end\n", "line 2: this `end` has no `for` or `block` above it"),
    ("for K 1 2\nlet N 1\nend\n", "line 3: `let` stands inside no other lines, and this one stands inside line 2"),
    ("for K 1 x\nend\n", "line 2: x isn't a number"),
    ("for K 1 2\ncomponent c{L}\nend\n", "line 3, with K = 1: nothing here has the name L; known are: K"),
    ("component c{1+}\n", "line 2: {1+} is neither a name nor a sum"),
    ("component c{2**9}\n", "line 2: braces have names, whole numbers, + - * / % and parentheses"),
    ("component c{1/0}\n", "line 2: a number is divided by 0"),
    ("let W w\ncomponent c{W+1}\n", "line 3: w isn't a number"),
    ("component c{1\n", "line 2: a brace of c{1 has no partner in this word (an expression has no blanks)"),
    ("let 1 2\n", "line 2: 1 can't be the name of a value: it has letters, digits and _, and begins with no digit"),
    ("let N 1\nlet N 2\n", "line 3: the name N is there already"),
    ("use b\n", "line 2: no block above has the name b; known are: none"),
    ("block b X\nend\nuse b\n", "line 4: the block b on line 2 takes 1 words (X), and here are 0"),
    ("block b\nuse b\nend\nuse b\n", "line 3: 50 blocks are inside each other; does b use itself?"),
    ("component a.b\n", "line 2: a.b isn't a name (1 to 64 letters, digits, _ and -)"),
    ("state a init\n", "line 2: this `state` stands before any component"),
    ("component p\nstate a\n", "line 2: no state of the component p is marked init"),
    (PART + PART, "line 6: the component p is there already"),
    (PART + "state a\n", "line 6: the state a is there already"),
    (PART + "trans a go b\n", "line 6: the transition a go b is there already"),
    (PART + "trans a go c\n", "line 6: the component has no state c above this line; it has a, b"),
    (PART + "event e p.go\n", "line 6: the line should have the shape `event NAME : COMPONENT.ACTION ..`, with `alarm LABEL`, `fault`, or both in this order before the colon"),
    (PART + "event e fault alarm L : p.go\n", "line 6: the line should have the shape `event NAME : COMPONENT.ACTION ..`, with `alarm LABEL`, `fault`, or both in this order before the colon"),
    (PART + "event e : p.go\nevent e : p.go\n", "line 7: the event e is there already"),
    (PART + "event e : p.come\n", "line 6: p has no transition come; it has go"),
    (PART + "event e : q.go\n", "line 6: there is no component q"),
    (PART + "event e : q.go?\n", "line 6: the event has no part left"),
    (PART + "trans b back a\nevent e : p.go p.back\n", "line 7: p would take two actions, go and back"),
    (PART + "event e : p\n", "line 6: p isn't COMPONENT.ACTION"),
    ("component p\nstate s init\nfor K 1 256\nstate s{K}\nend\n", "line 5, with K = 256: a model has at most 256 states of one component"),
]


def said(text, given=()):
    """The model, or what is wrong."""
    try:
        return model_of(text, given)
    except Wrong as wrong:
        return str(wrong)


def called(tool, *words, given=None):
    return subprocess.run([sys.executable, os.path.join(TOP, "tools", tool), *words], input=given, stdout=subprocess.PIPE, text=True, check=True).stdout


def not_finer():
    """The texts of examples/blocks that --finer writes otherwise than refine.py, or as they are."""
    for path in sorted(glob.glob(os.path.join(TOP, "examples", "blocks", "*.blocks"))):
        plain, finer = called("blocks.py", path), called("blocks.py", "--finer", path)
        if finer != called("refine.py", "-", given=plain) or finer.count("\ncomponent ") <= plain.count("\ncomponent "):
            yield path


def main():
    tried = [("blocks 1\n" + text, (), "des 1\n" + model) for text, model in WRITTEN]
    tried += [(text if whole else "blocks 1\n" + text, (), words) for text, words, *whole in WRONG]
    tried += [("blocks 1\nlet N 1\ncomponent c{N}\nstate s init\n", [("N", "7")], "des 1\ncomponent c7\nstate s init\n"),
              ("blocks 1\nlet N 1\n", [("M", "7")], "on the command line: no `let` has the name M")]
    wrong = 0
    for text, given, wanted in tried:
        answer = said(text, given)
        if answer != wanted:
            wrong += 1
            print(f"of the text\n{text}it should be\n{wanted}\nand it is\n{answer}")
    for path in not_finer():
        wrong += 1
        print(f"{path} isn't written finer as it should be")
    print(f"{len(tried)} texts of blocks, of which {wrong} give something else than they should")
    return 1 if wrong else 0


if __name__ == "__main__":
    sys.exit(main())
