NB. Numbers in other forms: powers of ten, bases, minus.
NB. A digit may be a letter, from a for 10 to z for 35, and as large as the base or larger.
16b1f 2b129 36bzz
_3e2 1e3 + 1
