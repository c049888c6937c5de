#!/bin/sh -e
# The front page links to all others. One redo-ifchange names them all: each is built even if another fails, and several
# side by side with -j. A redo-ifchange inside the loop would build one after another, and end at the first that fails.
redo-ifchange header.part footer.part about.html news.html guide/start.html
cat header.part
echo '<h1>Contents</h1>'
for page in about news guide/start; do
    echo "<p><a href=\"$page.html\">$page</a></p>"
done
cat footer.part
