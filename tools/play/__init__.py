"""The page for the browser: one HTML file that holds the program as WebAssembly, the examples and the tables of the documents."""
