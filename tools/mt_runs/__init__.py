"""What the tools share: runs of the program `mt`, and the forms of what it answers.

Nothing here knows how traffic is switched: each module reads what the program printed, or what docs/SCRIPT.md says of it.
"""
