#!/bin/sh
# Fails if a carried file is missing or differs from the published one.
set -eu
cd "$(dirname "$0")"
sha256sum --strict -c SHA256SUMS
