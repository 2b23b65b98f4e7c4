#!/bin/sh
# Builds the proved ciphers as a static library, checks them against OpenSSL's on random input, and times both.
# It needs the Rattle kit, a C compiler, and OpenSSL 3 with its headers and its legacy provider (Debian: libssl-dev). No part of the gate.
set -eu
cd "$(dirname "$0")/.."
kit=$(dirname "$(rt doc)")
out=crates/bench_calls/out

mkdir -p $out
(cd crates/bench_calls && rt lib) >$out/lib.log 2>&1 || {
    cat $out/lib.log
    exit 1
}
cc -O2 -Wall -Wextra -o $out/bench bench/bench.c $out/libbench_calls.a "$kit/c/liblibc_c.a" -lcrypto

lscpu | sed -n 's/^Model name: */CPU: /p'
openssl version
rt version
$out/bench
