#!/bin/sh -e
redo-ifchange north/anna.conf north/bert.conf south/cleo.conf
