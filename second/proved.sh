# For scripts that run at the top of the repository and tell what the proved programs say (source it there).

# built SOURCE: build a plain program into target/second if it is older than any source.
built() {
    local program source
    program=target/second/$(basename "$1" .rs)
    mkdir -p target/second
    for source in second/*.rs "$1"; do
        if [[ ! "$program" -nt "$source" ]]; then
            rustc --edition 2021 -O "$1" -o "$program"
            break
        fi
    done
}

# heard KIND FILE: the stream of a readable FILE, or FILE itself if KIND is --stream, and what the program prints for it,
# in $work/stream and $work/lines.
heard() {
    tools/build month to_bytes
    work=$(mktemp -d)
    trap 'rm -r "$work"' EXIT
    if [[ $1 == --stream ]]; then
        cp "$2" "$work/stream"
    else
        crates/to_bytes/out/to_bytes <"$2" >"$work/stream"
    fi
    crates/month/out/month <"$work/stream" >"$work/lines"
}
