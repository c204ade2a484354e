#!/usr/bin/env bash
# Times a site's pages on 1, 2 and 4 threads of one process, beside as many processes of one thread at once. The program's source
# lies in bench/threads_bench; it is compiled with no proof in a temporary folder, unless programs are given: several are timed in
# turn, in one run, as before a change and after it. Compiled so, a thread that waits for a lock does not pause between its first
# tries, as it does in a proved program.
#
# usage: bench/threads.sh [--kinds KIND..] [--counts NUMBER..] [--nodes NUMBER] [--events NUMBER] [--most NUMBER] [--runs NUMBER] [--milliseconds NUMBER]
#        [--items NUMBER] [--stale MILLISECONDS] [--every MILLISECONDS] [--compute MICROSECONDS] [--figures] [PROGRAM..]
#
# It prints tables in markdown, in ten minutes where nothing else is said. bench/threads_bench/times.py says what the columns mean.
set -euo pipefail
cd "$(dirname "$0")/.."
PYTHONPATH=scripts exec python3 bench/threads_bench/times.py "$@"
