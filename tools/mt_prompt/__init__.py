"""The prompt: each line is answered at once, by running the lines so far again with it."""
