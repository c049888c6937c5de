# Asks for a path that is no file and has no rule.
redo-ifchange lost.txt
cat lost.txt
