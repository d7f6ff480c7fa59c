#!/bin/sh
# A plugin in shell: AES-256-CBC by openssl under the key in PLUGIN_KEY (64 hex digits; a fixed one
# where it isn't set). A source is the IV in hex and the ciphertext behind it. CBC alone doesn't
# notice a changed source, and the key stands in a command line: an example, and no way to keep a key.
key=${PLUGIN_KEY:-000102030405060708090a0b0c0d0e0f101112131415161718191a1b1c1d1e1f}
id=openssl-1

# the text of a member; the members that are asked for here have no escapes
member() { printf '%s\n' "$2" | sed -n "s/.*\"$1\":\"\\([^\"]*\\)\".*/\\1/p"; }

bytes() { member "$1" "$2" | openssl base64 -d -A; }

wrap() {
    iv=$(openssl rand -hex 16)
    { printf '%s' "$iv"; bytes plaintext "$1" | openssl enc -aes-256-cbc -K "$key" -iv "$iv"; } | openssl base64 -A
}

unwrap() {
    iv=$(bytes ciphertext "$1" | head -c 32)
    bytes ciphertext "$1" | tail -c +33 | openssl enc -d -aes-256-cbc -K "$key" -iv "$iv" 2>/dev/null | openssl base64 -A
}

while IFS= read -r line; do
    case $(member call "$line") in
    status) echo "{\"healthz\":\"ok\",\"key_id\":\"$id\",\"version\":\"v2\"}" ;;
    encrypt) echo "{\"annotations\":{},\"ciphertext\":\"$(wrap "$line")\",\"key_id\":\"$id\"}" ;;
    decrypt)
        plain=$(unwrap "$line")
        if [ "$(member key_id "$line")" != "$id" ]; then
            echo '{"error":"key id"}'
        elif [ -n "$plain" ]; then
            echo "{\"plaintext\":\"$plain\"}"
        else
            echo '{"error":"check"}'
        fi
        ;;
    *) echo '{"error":"request"}' ;;
    esac
done
