#!/bin/sh -e
redo-ifchange index.html
