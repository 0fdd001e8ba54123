#!/bin/sh
# Lets a header through only where it is no weaker than the one in use.
guidecerise compare https://a.example --new "$1" --old "$2" --save-proof kept.proof
case $? in
    0) echo "the proof is in kept.proof" ;;
    1) echo "the header became weaker" >&2; exit 1 ;;
    *) echo "there is no answer" >&2; exit 2 ;;
esac
