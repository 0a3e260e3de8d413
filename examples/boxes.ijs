NB. A short report: labels in boxes over linked columns, and the words of a text counted.
NB. Two lists of boxes as the two items of a noun are a table of two rows.
names =: 'pear';'fig';'apple'
amounts =: 3 12 5
('name';'amount') ,: (> names);,. amounts
'total ' , ": +/ amounts
$ ; names
words =: ;: 'to be or not to be'
words
(~. words) ,: <"0 +/"1 = words
> {: words
