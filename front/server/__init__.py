"""The language server: `bin/rohcfn lsp`. It speaks with an editor by the Language Server Protocol on standard input and output (docs/EDITORS.md)."""
