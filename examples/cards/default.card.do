# What is sold, and its price.
redo-ifchange "$2.price"
printf '%s ' "$2"
cat "$2.price"
