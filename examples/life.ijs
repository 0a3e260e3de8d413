NB. The game of life on a board of 6 by 6 whose edges meet: a glider, and where it is after each of four generations.
NB. A place lives next where three of it and its eight neighbours live, or where it lives and four of them do.
board =: 6 6 {. 3 3 $ 0 1 0 0 0 1 1 1 1
three =: 1&|. + _1&|. + ]
nine =: three"1@:three
next =: (3 = nine) +. ] * 4 = nine
nine board
board { '.#'
(next board) { '.#'
(next^:2 board) { '.#'
(next^:3 board) { '.#'
(next^:4 board) { '.#'
(1 1 |. next^:4 board) -: board
+/ , next^:100 board
