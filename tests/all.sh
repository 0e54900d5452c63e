#!/usr/bin/env bash
# Everything: the pages, the proofs from nothing with the mutants, and all tests of the programs that these build. The driver has them
# in order, goes on behind one that fails, and ends with a table of them.
exec "$(dirname "$0")/run" "$@"
