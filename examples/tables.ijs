NB. A table of points, a row for each player and a column for each round: transposed, summed, ranked and sorted,
NB. and put into groups. Running totals and sums of groups are products with a table of ones and zeros.
points =: 4 3 $ 7 9 8 5 6 10 9 9 4 6 7 7
points
|: points
total =: +/"1 points
total
NB. each player's rank, the players from the best on, and their points
1 + /: \: total
\: total
points \: total
NB. the best of each round, and who had it first
>./ points
(|: points) i."1 0 >./ points
NB. totals after each round
(>:/~ i. 3) +/ . * |: points
NB. by teams: who is in which, and the teams' points by round
team =: 'abba'
teams =: ~. team
teams =/ team
(teams =/ team) +/ . * points
teams ,. ' ' ,. ": (teams =/ team) +/ . * points
