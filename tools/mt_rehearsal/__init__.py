"""The rehearsal of a runbook: documents of a cluster and a plan in, a report out, of which every state was answered by the program `mt`.

`cluster` and `commands` read the operator's documents, `beginning` makes of them the script's first lines, `rehearse` runs the commands, `replay` compares
what a real cluster printed. `report` is the report as data, `printing` its text.
"""
