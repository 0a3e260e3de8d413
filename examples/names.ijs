NB. Names for verbs and nouns. A noun is taken when the name is read,
NB. and a verb's name is looked up each time that it is applied.
f =: - @: +
2 f 3
sum =: 100 + 20
double =: + ]
double 1 2 3
sum double 5
(last =: 3 4)
f =: *
4 f last
