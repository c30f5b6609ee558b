#!/usr/bin/env bash
# Whether what the documents name is there: the targets of their links, files, and items of the code.
#
#     documents.sh
#
# documents.py says which names it looks up.
#
# Needs python3 from 3.10 on.
#
# Exit status: 0 if all is there; 1, after a line for each name that is not; 77, after what is missing, if it could not
# be run.
set -u
. "$(dirname "${BASH_SOURCE[0]}")/../tools/common.sh"
need_python
run_python "$top/checks/documents.py"
end
