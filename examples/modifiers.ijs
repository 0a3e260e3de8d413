NB. Modifiers make a verb of their operands: other ranks, one verb on what another gives,
NB. an argument held fast, arguments swapped, and a verb repeated.
3 4 +"0 1 ] 10 20
10 -~ 3
2&*^:3 ] 1
8 -&+: 3
(100&<.)@+: 30 60
100 | 7&*^:2: 5
3 (*&10@- + ]) 1
-:^:4 ] 48
0&*^:_ ] 5
