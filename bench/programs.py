"""Ten programs, each of which spends its time in one thing, and ten in ordinary style.

Each of the first has its name, how many rounds are enough to count its instructions, how many to measure its time, and its text, which makes
`n` rounds. The others are the files of bench/ordinary, whose first line says how many rounds they make; beside each lies its twin in Lua,
which prints the same.
"""
import glob
import os

PROGRAMS = [
    ('integer loop, bound', 20000, 6000000, '0 1 1 n { 3 mul add 65521 mod } bind for ='),
    ('nested loops, not bound', 1, 60,
     '/m 100 def /triples { /c 0 def 1 1 m { /a exch def /k a def a 1 m { /b exch def /s a a mul b b mul add def '
     '{ k k mul s ge { exit } if /k k 1 add def } loop k k mul s eq { k m le { /c c 1 add def } if } if } for } for c } def '
     '0 n { pop triples } repeat ='),
    ('sieve', 2, 400,
     '/a 4000 array def /sieve { 0 1 3999 { a exch true put } for 2 1 63 { /i exch def a i get { i i mul i 3999 { a exch false put } for } if } '
     'for 0 2 1 3999 { a exch get { 1 add } if } for } bind def 0 n { sieve add 65521 mod } repeat ='),
    ('dictionaries', 5, 1200,
     '/di 450 dict def /dn 450 dict def /ds 450 dict def /names [ 0 1 399 { 10 string cvs } for ] def '
     '/lits [ names { dup length string copy cvn } forall ] def /one { 0 1 399 { di exch dup 3 mul put } for 0 0 1 399 { di exch get add } for '
     'lits { dn exch 5 put } forall lits { dn exch known { 1 add } if } forall names { ds exch 2 put } forall names { ds exch get add } forall '
     'dn begin lits { load add } forall lits { 7 def } forall end } bind def 0 n { one add 65521 mod } repeat ='),
    ('Fibonacci by recursion', 1, 30, '/fib { dup 2 lt {} { dup 1 sub fib exch 2 sub fib add } ifelse } bind def 0 n { pop 24 fib } repeat ='),
    ('operand stack, bound', 10000, 1200000,
     '1 2 3 4 5 n { 3 -1 roll 5 2 roll 2 index exch pop 3 copy pop pop pop dup 4 1 roll exch 4 index pop pop 0 5 1 roll 5 1 roll 4 -1 roll pop } '
     'bind repeat [ 6 1 roll ] =='),
    ('allocation', 60000, 600000,
     '0 1 1 n { dup 3 array dup 0 4 -1 roll put exch pop 8 string 0 2 index 0 get 255 and put 2 array pop 0 get 1 and add } bind for ='),
    ('forall', 2, 600,
     '/v 4000 array def 0 1 3999 { v exch dup put } for /s 4000 string def 0 1 3999 { s exch dup 255 and put } for /one { 0 v { add 65521 mod } '
     'forall v { dup 1 and 0 eq { add 65521 mod } { pop } ifelse } forall s { add } forall 65521 mod } bind def '
     '0 n { one add 65521 mod } repeat ='),
    ('caught errors', 1000, 10000,
     '/c 0 def n { { 1 0 idiv } stopped { pop pop 1 } { 0 } ifelse { nosuchname } stopped { 1 } { 0 } ifelse add '
     '{ [1] 5 get } stopped { pop pop 1 } { 0 } ifelse add { stop } stopped { 1 } { 0 } ifelse add /c c 3 -1 roll add def } repeat '
     'c = $error /errorname get ='),
    ('executable string of 150 bytes', 2000, 50000,
     r'/text (/x 16#1F def /y -42 def { x y add } pop [ 1 2 3 ] pop \(str\\n \(in\) \\101\) pop <48656C> pop % comment\n x y add 5 mul 8#777 sub '
     'dup exch pop pop acc 1 add /acc exch def) def /acc 0 def n { text cvx exec } repeat acc ='),
]


def text_of(text, rounds):
    """The program that makes so many rounds."""
    return f'/n {rounds} def\n{text}\n'


def ordinary():
    """The names and texts of the programs in ordinary style."""
    made = []
    for path in sorted(glob.glob(os.path.join(os.path.dirname(os.path.abspath(__file__)), 'ordinary', '*.ps'))):
        with open(path, encoding='ascii') as file:
            made.append((os.path.basename(path).removesuffix('.ps'), file.read()))
    return made


def twin_of(name):
    """The file of the twin in Lua of a program in ordinary style; none of another program."""
    path = os.path.join(os.path.dirname(os.path.abspath(__file__)), 'ordinary', name + '.lua')
    return path if os.path.exists(path) else None
