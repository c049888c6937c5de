# Reads a file that it hasn't declared: redo-ifchange notes.txt has to come first.
cat notes.txt
