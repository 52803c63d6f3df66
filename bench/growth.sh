#!/usr/bin/env bash
# Measures how the cost of each kind of file grows with its size: lists, chains, arguments, items, tables, handlers,
# functions, routines and what they declare, and rows.
#
#     bench/growth.sh [--kinds NAME,..] [--largest N | --limits] [--seconds N] [--memory MB]
#     bench/growth.sh --write FOLDER [--kinds NAME,..] [--largest N | --limits]
#     bench/growth.sh --list
#
# Each kind is run at a quarter and at half of its largest size, and at that size. The program is $PSM_PROGRAM, or else
# the one that `./psm which` prints. A line for each kind has the sizes, the processor seconds (the best of three runs),
# the peak memory, and the ratio of each size to half of it. At the end stand the ratios above 2.3. A ratio in
# parentheses is not judged, since the larger run took under 0.02 seconds or under 16 MB. A wrong answer, a run that
# took too long and one that took too much memory are errors, and the exit status is 1.
#
#     --kinds NAME,..   only these kinds; * and ? are patterns
#     --largest N       N as the largest size of each kind, or the kind's limit if that is lower
#     --limits          the limit of each kind as its largest size; this takes much more than a minute
#     --seconds N       stop a run after N processor seconds, 60 if it is not said
#     --memory MB       refuse a run more memory than this, 4000 if it is not said
#     --write FOLDER    only write the files to FOLDER/KIND/SIZE, and print their bytes and tokens
#     --list            only print the kinds, with their largest sizes
set -u
exec python3 "$(dirname "$0")/growth.py" "$@"
