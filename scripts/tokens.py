#!/usr/bin/env python3
"""Prints the tokens that the rows of crates/command_rows/data/exchanged_combinations.rows put into the vaults `c` and `t` of written.rows,
and an empty file of `c`, as scripts/vault_writer.py writes them with Python's package cryptography."""
from vault_writer import Cryptomator

ENC, MAC = b"key of 32 bytes for the contents", b"key of 32 bytes for names and id"
OTHERS = b"another key of 32 bytes for this", b"another key of 32 bytes for that"


def token(enc, mac, combo):
    return Cryptomator(enc, mac, 36, combo).configuration(b"secret", 2, 1)[1].decode()


def under(signed, signature):
    """What one token signs, under the signature of another."""
    return signed.rpartition(".")[0] + "." + signature.rpartition(".")[2]


gcm, ctr = token(ENC, MAC, "SIV_GCM"), token(ENC, MAC, "SIV_CTRMAC")
names = {
    "c.turned": under(ctr, gcm),
    "t.turned": under(gcm, ctr),
    "c.anew": ctr,
    "t.anew": gcm,
    "c.strange": token(*OTHERS, "SIV_GCM"),
    "c.exchanged": token(MAC, ENC, "SIV_GCM"),
    "t.strange": token(*OTHERS, "SIV_CTRMAC"),
    "t.exchanged": token(MAC, ENC, "SIV_CTRMAC"),
    "c.empty": Cryptomator(ENC, MAC, 36, "SIV_GCM").contents(b"").hex(),
}
for name, text in names.items():
    print(f"name {name} {text}")
