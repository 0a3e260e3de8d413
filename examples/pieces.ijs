NB. Pieces of a list: sums by key, running totals, sums of three in a row, and lists cut at a mark.
NB. Each verb left of the adverb is applied to every piece, and what comes out is put together.
region =: ;: 'north south north east south north'
amount =: 10 7 12 5 9 4
(~. region) ,. <"0 region +//. amount
region </. amount
+/\ amount
>./\ amount
3 +/\ amount
_3 +/\ amount
<;._1 ',one,two,,four'
#;._1 ',one,two,,four'
letters =: 'mississippi'
#/.~ letters
(~. letters) ,. ' ' ,. ": ,. #/.~ letters
</. i. 3 3
NB. the product of two polynomials, by the sums along oblique lines
+//. 1 2 1 */ 1 3 3 1
