NB. Two locales as name spaces: each has a rate and a fee of its own,
NB. and the verb `due` of the locale z finds `taken` in the locale that it is called in.
'rate_shop_ fee_shop_' =: 20 3
'rate_bank_ fee_bank_' =: 4 1
taken_shop_ =: rate_shop_&*
taken_bank_ =: rate_bank_&*
due_z_ =: ] + taken
due_shop_ 5
due_bank_ 5
where =: <'shop'
rate__where , fee__where
cocurrent 'bank'
echo rate , fee
due 5
cocurrent 'base'
rate_shop_ - rate_bank_
