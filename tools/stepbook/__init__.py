"""Step books: written and read, and run by the proved programs and the proved library. tools/book is the command."""
