NB. A verb between items: over lists, tables, no rows and no columns.
NB. Words, a name and a fork take items alike; only words have an identity.
,/ 2 3 $ i. 6
$ ,/ 5
$ ,/ 3 0 $ 0
{/ 0 0 , 5
f =: +
f/ 2 3 $ i. 6
$ f/ 3 0 $ 0
f/ , 5
(+ * -)/ 2 2 $ 5 6 3 2
$ +/ 0 3 $ 0
*/ i. 0
(+ * -)/ 0 3 $ 0
