#!/bin/sh
# 2,049 do lines, one more than a text may have.
printf 'claimants=1\nceiling=1\n'
yes 'do=step 1' | head -n 2049
