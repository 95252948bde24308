#!/usr/bin/env bash
# The bench builds, and the archive's stack and growth are what bench/run allows; on x86-64 instructions are counted.
cd "$(dirname "${BASH_SOURCE[0]}")/.." || exit 2
bash bench/run && bash bench/count
