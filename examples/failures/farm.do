# Is no part of the ring of hen and egg, but waits for it.
redo-ifchange hen
echo farm
