"""The judge of transcripts: what each party had to do by the rules of docs/, and what that says of files.

`drives`, `book`, `jobs`, `server` and `clients` are the parties, written from docs/rules/DRIVE.md, SERVER.md and CLIENT.md.
`world` goes through the lines of a transcript with them, step by step, as docs/rules/WORLD.md tells. `files` has the log of each
file and its judge, `calm` the moments of stripes, and `whole` what the drives hold at the end.
"""
