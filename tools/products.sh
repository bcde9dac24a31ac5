# shellcheck shell=bash
# What the scripts know of a product, which is a program or a build of the static library, by the name of its crate: the crates that it
# consists of, where it is built, and what release/ holds of it. The library has two builds: x86_64_c is the one for programs, and
# x86_64_c_kernel the one for kernels. The scripts set `top`, the folder of the repository, and then read this file.

release=${top:?}/release
manifest=$release/MANIFEST
# shellcheck disable=SC2034 # for the scripts that read this file
products=(ptdump pagetab x86_64_c x86_64_c_kernel)
# the process that a signal to the script ends
child=
# why the release of a product can't be used
lack=

# Says what is wrong, and ends with a status.
stop() {
    local status=$1
    shift
    printf '%s\n' "$*" >&2
    exit "$status"
}

for needed in awk find sort xargs sha256sum; do
    command -v "$needed" >/dev/null || stop 69 "$needed is needed, but isn't installed"
done

# Returns whether a product is the build of the library for kernels.
is_for_kernels() {
    [ "$1" = x86_64_c_kernel ]
}

# Prints the crate of a product.
crate_of() {
    echo "${1%_kernel}"
}

# Returns whether a product is a static library.
is_library() {
    grep -q "^$(crate_of "$1") staticlib:" "$top/crates.txt"
}

# Prints the name of a product's file where it is installed and, with .xz, in release/.
file_of() {
    case $1 in
    x86_64_c) echo libx86_64_paging.a ;;
    x86_64_c_kernel) echo libx86_64_paging_kernel.a ;;
    *) echo "$1" ;;
    esac
}

# Prints where a product of the release is unpacked.
unpacked_at() {
    if is_for_kernels "$1"; then
        echo "$top/out/kernel/libx86_64_paging.a"
    else
        echo "$top/out/$(file_of "$1")"
    fi
}

# Prints where a product is built.
built_at() {
    if is_for_kernels "$1"; then
        echo "$top/out/kernel/built/libx86_64_paging.a"
    elif is_library "$1"; then
        echo "$top/crates/$1/out/lib$1.a"
    else
        echo "$top/crates/$1/out/$1"
    fi
}

# Prints the command that proves and builds a product.
build_command() {
    if is_for_kernels "$1"; then
        echo "tools/kernel_library"
    elif is_library "$1"; then
        echo "tools/c_library --build"
    else
        echo "./$1 --build"
    fi
}

# Lists the files beside the crates by which a product is built.
tools_of() {
    ! is_for_kernels "$1" || echo tools/kernel_clang
}

# Lists the crates of the repository that a product consists of, each after those that it uses, as crates.txt does.
crates_of() {
    awk -F: -v product="$(crate_of "$1")" '
        { sub(/ .*/, "", $1); uses[$1] = $2; order[++count] = $1 }
        function need(name, names, k, last) {
            needed[name] = 1
            last = split(uses[name], names, " ")
            for (k = 1; k <= last; k++) if (names[k] in uses && !(names[k] in needed)) need(names[k])
        }
        END { need(product); for (k = 1; k <= count; k++) if (order[k] in needed) print order[k] }' "$top/crates.txt"
}

# Returns whether a file is there and no source of a product is newer.
is_current() {
    local product=$1 file=$2 crates folders tool
    [ -f "$file" ] && [ ! "$top/crates.txt" -nt "$file" ] || return 1
    for tool in $(tools_of "$product"); do
        [ ! "$top/$tool" -nt "$file" ] || return 1
    done
    mapfile -t crates <<<"$(crates_of "$product")"
    folders=("${crates[@]/#/$top/crates/}")
    [ -z "$(find "${folders[@]/%//src}" "${folders[@]/%//specs}" "${folders[@]/%//proofs}" \
        -newer "$file" -type f -print -quit 2>/dev/null)" ]
}

# ---- the release

# Prints the sum of a file.
sum_of_file() {
    sha256sum <"$1" | cut -d' ' -f1
}

# Prints the sum of a product's sources: of the sums of all files of its crates in src/, specs/ and proofs/, by path, of the lines of
# crates.txt on these crates, and for kernels of the sum of tools/kernel_clang.
sum_of_sources() {
    local crates tool
    mapfile -t crates <<<"$(crates_of "$1")"
    {
        (cd "$top/crates" && find "${crates[@]/%//src}" "${crates[@]/%//specs}" "${crates[@]/%//proofs}" \
            -type f \( -name '*.rt' -o -name '*.antt' \) -print0 2>/dev/null | LC_ALL=C sort -z | xargs -0 sha256sum)
        grep -E "^($(IFS='|' && echo "${crates[*]}"))[ :]" "$top/crates.txt"
        for tool in $(tools_of "$1"); do
            (cd "$top" && sha256sum "$tool")
        done
    } | sha256sum | cut -d' ' -f1
}

# Prints what MANIFEST says of a product: the sum of its file, unpacked, or that of its sources.
manifest_says() {
    local what=$1 product=$2
    sed -n "s/^$what $(file_of "$product") //p" "$manifest"
}

# Returns whether the release of a product was made of other sources.
is_release_older() {
    [ "$(sum_of_sources "$1")" != "$(manifest_says sources "$1")" ]
}

# Returns whether there is a release of a product, and this machine can run it. If not, `lack` says why.
has_release() {
    if [ ! -f "$manifest" ] || [ -z "$(manifest_says sum "$1")" ]; then
        lack="there is no release of it"
    elif [ "$(uname -sm)" != 'Linux x86_64' ]; then
        lack="its release is for Linux on x86-64"
    else
        return 0
    fi
    return 1
}

# Unpacks a product of the release into a file, and returns whether its sum is right. If not, `lack` says why.
unpack() {
    local packed said
    packed=$release/$(file_of "$1").xz
    if ! command -v xz >/dev/null; then
        lack="its release can't be unpacked without xz, which isn't installed (Debian has it in xz-utils)"
    elif ! said=$({ xz -dc "$packed" >"$2"; } 2>&1); then
        lack="its release can't be unpacked: $said"
        xz -tq "$packed" 2>/dev/null || lack+=" (git checkout release restores it)"
    elif [ "$(sum_of_file "$2")" != "$(manifest_says sum "$1")" ]; then
        lack="${packed#"$top/"} isn't what release/MANIFEST says (git checkout release restores both)"
    else
        return 0
    fi
    return 1
}

# Unpacks a product of the release into out/, unless it is there, whatever sources it was made of. If it can't be used, `lack` says why.
use_any_release() {
    local product=$1 to new
    to=$(unpacked_at "$product")
    has_release "$product" || return
    if [ -f "$to" ] && [ "$(sum_of_file "$to")" = "$(manifest_says sum "$product")" ]; then
        return 0
    fi
    if ! mkdir -p "${to%/*}" || ! new=$(mktemp "$to.XXXXXX"); then
        lack="its release can't be unpacked into ${to%/*}/"
        return 1
    fi
    if ! unpack "$product" "$new"; then
        rm -f "$new"
        return 1
    fi
    chmod "$(is_library "$product" && echo 644 || echo 755)" "$new"
    mv "$new" "$to"
}

# The same, but only of a release that was made of these sources.
use_release() {
    if has_release "$1" && is_release_older "$1"; then
        # shellcheck disable=SC2034 # for the scripts that read this file
        lack="its release was made of other sources"
        return 1
    fi
    use_any_release "$1"
}

# Sets `program` to a product as it is built, or else as a release of these sources has it. If there is neither, `lack` says why.
find_program() {
    program=$(built_at "$1")
    if ! is_current "$1" "$program"; then
        program=$(unpacked_at "$1")
        use_release "$1"
    fi
}

# ---- children

# Runs a command on standard input, and returns its status. Ends it if the script is told to end.
run_child() {
    local status=0
    trap 'end_child 1' HUP
    trap 'end_child 2' INT
    trap 'end_child 15' TERM
    "$@" <&0 &
    child=$!
    wait "$child" || status=$?
    child=
    return "$status"
}

# Ends the child, and then the script, because of a signal. rt ends all that it started.
end_child() {
    trap '' HUP INT TERM
    if [ -n "$child" ]; then
        kill "$child" 2>/dev/null || :
        wait "$child" || :
    fi
    exit $((128 + $1))
}
