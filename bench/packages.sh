#!/bin/sh
# packages.sh COMPILER: whether all is there that the benchmark needs. If not, says which Debian packages have it, and fails; installs nothing.
compiler=${1:-c++}
missing=

has() { command -v "$1" > /dev/null 2>&1; }
has_header() { echo "#include <$1>" | "$compiler" -x c++ -fsyntax-only - 2> /dev/null; }

if has "$compiler"; then
    has_header NTL/lzz_pX.h || missing="$missing libntl-dev"
    has_header flint/nmod_poly.h || missing="$missing libflint-dev"
else
    missing="$missing g++ libntl-dev libflint-dev"
fi
has python3 || missing="$missing python3"

if [ -n "$missing" ]; then
    echo "The benchmark needs Debian packages that are not here. Install them with: apt-get install$missing" >&2
    exit 1
fi
