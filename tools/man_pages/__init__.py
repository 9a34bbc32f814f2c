"""Man pages, made of docs/CLI.md, docs/VERIFIER.md and the texts of bpfhost.h."""
