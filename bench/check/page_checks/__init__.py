"""What `bench/check/pages` tests, by subject.

`page` reads pages: their headings, links, tables and blocks. `room` runs blocks as a reader would.
`case` collects the cases, which stand in the other modules: `reading` and `counts` of the pages
themselves, and those of what the pages claim.

A case that needs a block, a table or a sentence of a page asks for it by what stands in it
(`page.blocks_with`, `page.table`, `page.phrase`), and never by the page's name: so a text may go to
another page, and its cases go along.
"""
