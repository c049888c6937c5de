# Ends with a status of its own. What it wrote is dropped.
echo 'only a part'
exit 3
