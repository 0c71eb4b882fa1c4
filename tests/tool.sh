#!/usr/bin/env bash
# tool.sh NAME..: one clear line for the first tool that is missing, and exit status 1.
for tool in "$@"; do
  if ! command -v "$tool" >/dev/null 2>&1; then
    echo "missing tool: $tool (needed: rt, cargo, gcc, make)" >&2
    exit 1
  fi
done
