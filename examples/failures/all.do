#!/bin/sh -e
# Asks for each of these. It waits for all of them, and then fails as one of them failed.
redo-ifchange good status missing undeclared
