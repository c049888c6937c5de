redo-ifchange hen
echo egg
