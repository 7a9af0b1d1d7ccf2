#!/bin/sh
# A text of 32,769 bytes, one more than a text may have: it keeps the layout, and is refused all the same.
printf 'claimants=1\nceiling=1\n'
yes 'do=ask 10 10000' | head -n 2046
printf 'do=step 10\n'
