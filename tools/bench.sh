#!/bin/sh
# Shows how many times faster AES-128-GCM seals and opens, and X25519 and Ed25519 are, than plain programs that compute the same, and where
# `openssl` is installed its own speed beside: with all instructions of the processor, without those for AES and for products in GHASH, and
# with none but the plainest. Then it shows ratios in one run: sealing and opening packets under MacOnly and under AES-128-GCM to the
# HMAC-SHA-256 of the same bytes, an agreement by X25519 and a signature by Ed25519 and its verification to that of 1,024 bytes, exchanges of
# keys, data and sessions to the hashes that both ends compute, and taking data with all channels in use to that with one. The program is
# proved and built with optimization first, which takes some minutes the first time. ROUNDS says how often each time is taken; the fastest
# counts.
set -eu
top=$(cd "$(dirname "$0")/.." && pwd)
. "$top/tools/common.sh"
cd "$top/crates/ssh_bench"
"$rt" run -- ciphers "${ROUNDS:-200}"

# One line of what openssl says of its speed, with the capabilities $1 of the processor, as $2 calls them.
openssl_speed() {
    seal=$(OPENSSL_ia32cap=$1 openssl speed -seconds 1 -bytes 32768 -evp aes-128-gcm 2>/dev/null | awk '/^AES-128-GCM/ { print int($2 / 1000) }')
    agree=$(OPENSSL_ia32cap=$1 openssl speed -seconds 1 ecdhx25519 2>/dev/null | awk '/X25519/ { print int($NF) }')
    sign=$(OPENSSL_ia32cap=$1 openssl speed -seconds 1 ed25519 2>/dev/null | awk '/Ed25519/ { print int($(NF - 1)) ", verifying " int($NF) }')
    echo "openssl, $2: sealing 32768 bytes $seal MB/s, X25519 $agree a second, Ed25519 signing $sign a second"
}
if command -v openssl >/dev/null 2>&1; then
    openssl_speed : "all instructions"
    openssl_speed '~0x200000200000000' "without AES-NI and PCLMULQDQ"
    openssl_speed 0:0 "none but the plainest"
else
    echo "openssl is not installed, so nothing is compared with it"
fi
"$rt" run -- run "${ROUNDS:-200}"
