redo-ifchange egg
echo hen
