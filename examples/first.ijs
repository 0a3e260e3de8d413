NB. The shortest run: a list of numbers plus a number.
NB. The number is added to each of the three.
1 2 3 + 10
