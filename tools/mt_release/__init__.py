"""The archive that is installed, of this repository at a commit.

`version` and `origin` say which one it is and what is known of it, `built` has the built files made where that is due, `markdown` reads a page and
`manual` makes the man page of one, `layout` says what stands where in the archive, and `archive` packs that so that the same files make the same bytes.
"""
