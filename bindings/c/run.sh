#!/bin/sh
# Builds libcensus.a and the example, and runs it.
set -e
cd "$(dirname "$0")/../.."
(cd crates/census && rt lib)
mkdir -p target/bindings
cc -std=c11 -O2 -Wall -Wextra -Werror -o target/bindings/example bindings/c/example.c crates/census/out/libcensus.a
./target/bindings/example
