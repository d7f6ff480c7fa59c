"""How many values one key of aesgcm may seal, since its nonces are random: two values under one nonce give both away, and let others
be made."""

# As Kubernetes asks: behind so many writes the key is exchanged, all API servers' and rewrites' counted together.
MOST_SEALED = 200_000
# NIST SP 800-38D, 8.3: so many at most with random nonces of 96 bits.
MOST_BY_STANDARD = 2**32
