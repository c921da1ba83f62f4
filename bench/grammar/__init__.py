"""The syntax of Typst by plain programs, apart from the library: its table, a lexer, a machine, and texts with their trees."""
