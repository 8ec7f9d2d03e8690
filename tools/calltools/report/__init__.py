"""Reports and traces of the program, and what is drawn of them."""
