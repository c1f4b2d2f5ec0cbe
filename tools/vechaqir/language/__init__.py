"""Sources as the tools read them: lexemes, kinds, tasks and networks, and the constructs of C++ that the language has not."""
