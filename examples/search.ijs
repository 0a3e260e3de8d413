NB. Looking for numbers: places, last places, membership and counts in a list in no order,
NB. and in a sorted one the place of a number by halving, each half told by one comparison.
list =: 31 4 15 9 26 5 35 8 9 7 93 23 8 46
list i. 9 8 100
list i: 9 8 100
9 100 e. list
+/ list = 8
I. list > 30
list -. 8 9
NB. sorted, with the places that the items had
sorted =: /:~ list
sorted
/: list
NB. how many items are below each of these: where they stand, or would
+/"1 (8 23 50) >/ sorted
NB. the same for 23 by halving: from the places 0 to 14, until nothing changes
middle =: -:@(- 2&|)@(+/)
below =: 23 > middle { sorted"_
step =: (below * >:@middle , {:) + -.@below * {. , middle
step 0 , # sorted
step^:_ ] 0 , # sorted
({. step^:_ ] 0 , # sorted) { sorted
