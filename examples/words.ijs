NB. The words of a text, each with its number of occurrences, the most frequent first.
NB. Capitals are made small and whatever is no letter is made a blank, each by one look-up.
text =: 'The cat saw the dog, and the dog saw the cat; then the cat ran.'
codes =: a. i. text
small =: (codes + 32 * codes e. 65 + i. 26) { a.
alphabet =: (97 + i. 26) { a.
clean =: (alphabet i. small) { alphabet , ' '
words =: ;: clean
# words
different =: ~. words
# different
counts =: +/"1 different =/ words
order =: \: counts
(order { different) ,. <"0 order { counts
NB. how many letters each has, and those of the longest ones
lengths =: #@> different
lengths
(lengths = >./ lengths) # different
