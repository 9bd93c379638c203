#!/usr/bin/env bash
# Runs the tests of the tools in this folder, which take some 50 processor seconds together. Those of devices are skipped where there is no root.
#     tools/tests.sh [NAME..]      default: all; a name is that of a file, such as gateway_test
set -eu
cd "$(dirname "$0")"
[ $# -gt 0 ] || set -- *_test.py
exec python3 -W error::ResourceWarning -m unittest "${@%.py}"
