#!/usr/bin/env bash
# Whether docs/trust.md is the reading list of the sources as they are.
set -u
cd "$(dirname "$0")/../.."
if [ "$(tools/reading-list)" = "$(cat docs/trust.md)" ]; then
  echo '1 reading-list passed, 0 failed'
else
  echo 'docs/trust.md is not what the sources say: run make reading-list'
  echo '0 reading-list passed, 1 failed'
fi
