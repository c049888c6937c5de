#!/bin/sh -e
# The file of a host: the shared parts, and then the host's own lines, where it has any.
redo-ifchange shared/log.part shared/time.part $2.lines
redo-ifcreate $2.override
echo "# $1"
cat shared/log.part shared/time.part
if test -f $2.lines; then
    cat $2.lines
fi
