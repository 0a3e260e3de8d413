NB. Totals, sorting, searching, tables and digits.
NB. A verb with / stands between items, or between all of one side and all of the other.
+/ 3 1 4 1 5
/:~ 3 1 4 1 5
~. 3 1 4 1 5
3 1 4 1 5 i. 4
3 1 4 1 5 e. 1 5
+/ 3 1 4 1 5 = 1
1 2 3 */ 1 2 3
(2 2$1 2 3 4) (+/ . *) 2 2$5 6 7 8
10 #. 4 2
#: 5
