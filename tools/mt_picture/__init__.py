"""The facts behind each line of a script, and the page that draws them.

`script` reads a script, `moves`, `columns` and `clients` tell what its lines are, `asking` and `ways` put questions to the program in runs that are thrown
away, `history` and `gathering` make the document of `facts` of what it answered, and `drawing` hands that document to the drawing in `page/`. docs/PICTURE.md
has the form of the document.
"""
