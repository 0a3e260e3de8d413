NB. Arithmetic on lists: item by item, or one number with each item.
NB. A verb takes all that stands right of it, so 2 * 3 4 - 1 is 2 * 2 3.
3 4 5 * 2
2 * 3 4 - 1
- 1 2 _3
* _5 0 7
100 200 300 - 1 2 3
