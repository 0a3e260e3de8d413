NB. A report: records of a region, a product and an amount from one list,
NB. printed in columns, with totals and a table whose labels stand in boxes.
list =: 'north';'apples';10;'south';'pears';7;'north';'pears';12;'east';'apples';5;'south';'apples';9;'north';'apples';4
records =: 6 3 $ list
region =: 0 {"1 records
product =: 1 {"1 records
amount =: > 2 {"1 records
(> region) ,. ' ' ,. (> product) ,. ' ' ,. ": ,. amount
+/ amount
regions =: ~. region
products =: ~. product
(regions =/ region) +/ . * amount
table =: (regions =/ region) +/ . * amount * product =/ products
table
rows =: regions , < 'total'
columns =: products , < 'total'
whole =: table ,. +/"1 table
whole =: whole , +/ whole
(a: , columns) , rows ,. <"0 whole
