NB. Comparisons give 1 and 0, and a quotient is whole or an error.
NB. A verb on atoms goes through its arguments atom by atom.
7 8 9 > 8
'banana' = 'a'
_7 % 7
12 +. 18
12 *. 18
2 ^ 0 1 10 62
_3 | 7 8 9
3 <. 1 4 1 5
-: 10 20
words =: 'it''s a text'
words
