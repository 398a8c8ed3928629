# What a timing of the shell begins with; the scripts of bench/ read it. It finds their own folder, and makes a
# temporary one that is removed at the end.
here=$(cd "$(dirname "$0")" && pwd)
folder=$(mktemp -d)
trap 'rm -rf "$folder"' EXIT
trap 'exit 1' HUP INT TERM

# Ends where one of these programs is missing.
needs() {
    for tool; do
        command -v "$tool" > /dev/null || { echo "$tool is missing" >&2; exit 1; }
    done
}
