"""What tools/ask is made of.

`command` reads the words and goes the whole way; `program` finds audb and runs it; `rows` is the answer that it printed, and
`listing` and `page` show it to people. Where audb refuses, `refusals` explains its line, by `tables` (the files) and `queries`
(the words of a query), and `instead` finds a query that can be asked.
"""
