"""A plain reading of docs/FORMATS.md and docs/HTTP.md, written from these documents and not from the program: what texts,
files and requests mean, and what is answered. `bench/fuzz` compares the program with it."""
