# The frame of the scripts that show a misuse of an arena: sourced by them, not run.
#
# A script names the crates below the misuse in `crates`, and what else of crates.txt the misuse stands on in `kit`. It
# writes the misuse's source with `misuse`, and asks with `accepted` and `refused`.
root=$(cd "$(dirname "$0")/.." && pwd) || exit 1
name=$(basename "$0" .sh)
copy=$(mktemp -d) || exit 1
trap 'rm -rf "$copy"' EXIT
mkdir -p "$copy/crates/misuse/src"
for crate in $crates; do
    mkdir -p "$copy/crates/$crate"
    for part in src specs proofs; do
        if [ -d "$root/crates/$crate/$part" ]; then
            cp -r "$root/crates/$crate/$part" "$copy/crates/$crate/" || exit 1
        fi
    done
    grep -E "^$crate:" "$root/crates.txt" >> "$copy/crates.txt" || exit 1
done
echo "misuse: $crates $kit" >> "$copy/crates.txt"

# What the check of the misuse says, whose source is on standard input; its status is the check's.
check() {
    cat > "$copy/crates/misuse/src/lib.rt"
    (cd "$copy/crates/misuse" && rt check 2>&1)
}

# The control, on standard input, has to be accepted, so that a refusal is the misuse's alone.
accepted() {
    if ! said=$(check); then
        echo "$said"
        echo "$name: the control is refused"
        exit 1
    fi
}

# The misuse, on standard input, has to be refused, and by one of the borrow check's errors that are named.
refused() {
    if said=$(check); then
        echo "$said"
        echo "$name: the misuse is accepted"
        exit 1
    fi
    for error in "$@"; do
        case $said in
            *"error[$error]"*) echo "$name: refused, as it must be"; return ;;
        esac
    done
    echo "$said"
    echo "$name: the misuse is refused for another reason"
    exit 1
}
