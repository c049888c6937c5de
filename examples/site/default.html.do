#!/bin/sh -e
# A page is its fragment between the header and the footer.
redo-ifchange header.part $2.part footer.part
cat header.part $2.part footer.part
