NB. Shapes, joining, taking and selecting.
NB. These verbs go by the items and the axes of nouns, whatever their kind.
2 3 $ i. 6
$ 2 3 $ 'abc'
(i. 2 2) , 9
|: i. 2 3
_2 {. 4 5 6
1 |. 'abcd'
2 0 { 'abc'
1 0 2 # 5 6 7
I. 0 1 1 0 1
