redo-ifchange list.txt
