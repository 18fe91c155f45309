"""The language server: what pedx says of a program, to an editor that speaks the Language Server Protocol."""
