# shellcheck shell=bash
# Sourced by the scripts that run a program of ours, make an archive or link one. The script names itself in `me` first.
#
#     build program NAME          proves and builds a program where it is missing or old; `built` is then its path
#     build code NAME FILE...     the same with the code of a static library, as the kit hands it to its compiler (LLVM
#                                 bitcode); the words that it hands it with stand beside it, a line each, in NAME.words. The
#                                 files were made from old code, and go with it
#     processor_of [NAME]         `processor` is the one that is named, or this machine's own; ends the script where we make
#                                 no archive for it
#     for_processor               `compiler` builds C for `processor`, with the words `link`, and `emulator` runs it; on the
#                                 machine's own processor none does. Where a tool is not there, `missing` says which
#     for_rust                    the same for programs in Rust, after for_processor
#     rust SOURCE PROGRAM         builds a program in Rust with the crate of rust/ and the archive in the folder of `archive`
#
# All that a build says goes to standard error: on a terminal one line that is written again, elsewhere a line for each
# crate; where nothing is to build it says nothing. What is built is put into target/built when all of it is proved.
top=$(cd "$(dirname "${BASH_SOURCE[0]}")/.." && pwd)

tell() { printf '%s: %s\n' "$me" "$*" >&2; }

stop() { # STATUS WORDS
    tell "${*:2}"
    exit "$1"
}

processor_of() { # [NAME]
    processor=${1:-$(uname -m)}
    case $processor in
        x86_64 | aarch64 | riscv64) ;;
        *) stop 2 "no archive is made for $processor; there is one for x86_64, aarch64 and riscv64" ;;
    esac
}

for_processor() {
    compiler=cc link=() emulator=() missing=
    if [ "$processor" != "$(uname -m)" ]; then
        compiler=$processor-linux-gnu-gcc link=(-static) emulator=("qemu-$processor")
        command -v "${emulator[0]}" > /dev/null || missing="no ${emulator[0]} to run programs for $processor (Debian: qemu-user)"
        command -v "$compiler" > /dev/null || missing="no $compiler to build for $processor (Debian: gcc-${processor//_/-}-linux-gnu)"
    else
        command -v cc > /dev/null || missing="no cc to build for this machine (Debian: gcc)"
    fi
}

for_rust() {
    local triple=$processor-unknown-linux-gnu
    rust_words=()
    if [ -z "$missing" ] && ! command -v rustc > /dev/null; then missing="no rustc"; fi
    if [ -n "$missing" ] || [ "$compiler" = cc ]; then return 0; fi
    triple=${triple/riscv64/riscv64gc}
    ls "$(rustc --print target-libdir --target "$triple")"/libstd-*.rlib > /dev/null 2>&1 ||
        missing="rustc has no library for $triple (rustup target add $triple)"
    rust_words=(--target "$triple" -C "linker=$compiler")
    emulator+=(-L "$(dirname "$("$compiler" -print-file-name=libc.so.6)")/..") # the cross compiler's C library
}

rust() { # SOURCE PROGRAM
    local words=(--edition 2021 -O "${rust_words[@]}") crate=${2%/*}/libjellyspire.rlib
    rustc "${words[@]}" -L "${archive%/*}" --crate-type rlib --crate-name jellyspire -o "$crate" "$top/rust/src/lib.rs" &&
        rustc "${words[@]}" --extern "jellyspire=$crate" -o "$2" "$1"
}

# Where the kit stands.
kit() {
    local guide
    guide=$(rt doc) && cd "${guide%/*}" && pwd
}

links() { # FROM TO NAME    links in TO to all that FROM holds, but NAME
    mkdir -p "$2"
    find "$1" -mindepth 1 -maxdepth 1 ! -name "$3" -exec ln -s -t "$2" {} +
}

# A folder of links to the kit's compilers in which clang is a script of ours: it puts the code that it is handed into kept.bc
# there, and the words into kept.words, and then compiles as asked.
stand_in() { # KIT FOLDER
    links "$1/toolchain" "$2" bin
    links "$1/toolchain/bin" "$2/bin" clang
    cat > "$2/bin/clang" << SCRIPT
#!/bin/sh
for word; do
    case \$word in *.bc) cp "\$word" '$2/kept.bc' || exit ;; esac
done
printf '%s\n' "\$@" > '$2/kept.words' || exit
exec '$1/toolchain/bin/clang' "\$@"
SCRIPT
    chmod +x "$2/bin/clang"
}

# The crate and every crate of the repository that it stands on, a line each, in the order in which rt proves them.
crates_of() { # NAME
    awk -v name="$1" '
        function visit(n, below, i, k) {
            if (n in seen || !(n in deps)) return
            seen[n]
            k = split(deps[n], below, " ")
            for (i = 1; i <= k; i++) visit(below[i])
            print n
        }
        { sub(/#.*/, "") }
        split($0, part, ":") == 2 { split(part[1], word, " "); deps[word[1]] = part[2] }
        END { visit(name) }' "$top/crates.txt"
}

# Does the mark stand for these files and this kit? A file that was removed changes its folder; the folder of the crate itself is
# passed over, since out/ changes it.
fresh() { # MARK CRATE...
    local mark=$1
    shift
    [ -e "$built" ] && [ -e "$mark" ] && [ "$(cat "$mark")" = "$(rt version)" ] && [ ! "$top/crates.txt" -nt "$mark" ] &&
        [ -z "$(find "${@/#/$top/crates/}" -mindepth 1 \( -name must-fail -o -name out \) -prune -o -newer "$mark" -print -quit)" ]
}

# Builds a static library over the libraries below it as they stand in their out/, by the compiler of the folder.
compile() { # NAME FOLDER CRATE...
    local kit below=() crate
    kit=$(kit) || return
    for crate in "${@:3}"; do
        [ "$crate" = "$1" ] || below+=(--extern "$crate=$top/crates/$crate/out/rlib/$crate.rlib")
    done
    "$kit/bin/rattle" build --crate-name "$1" --crate-type staticlib src/lib.rt --extern "std=$kit/rlibs/std.rlib" \
        -L "dependency=$kit/rlibs" "${below[@]}" --antt-project "$kit/rattle/logic/antt-project.json" \
        --logic-built "$kit/logic_built" --incremental out/incremental --backend llvm --toolchain "$2" -o "$2/lib$1.a"
}

# What the build runs, in a process group of its own. rt builds no program without running it, so it gets no input.
prove() { # KIND NAME FOLDER CRATE...
    cd "$top/crates/$2" || return
    case $1 in
        program) rt run > /dev/null ;;
        code)
            # `.ci/run` says so where the libraries in out/ are those that rt ci has just proved
            if [ -n "${JELLYSPIRE_PROVED:-}" ]; then
                mkdir -p out
                compile "${@:2}" && return
            fi
            rt check && compile "${@:2}"
            ;;
    esac
}

# The crates that the log names, a line each: `begun NAME`, and then `proved NAME`.
events() { # LOG
    awk '/^rt: chose --jobs [0-9]+ for / { name = $NF; print "begun", name }
         /^logic=proved / && name { print "proved", name; name = "" }' "$1"
}

# Says which crates of the log were proved since it was last asked; `hand` is the crate that is in hand.
progress() { # LOG COUNT
    local event name took
    hand=
    while read -r event name; do
        hand=$name place=${places[$name]:-$place}
        [ -n "${since[$name]:-}" ] || since[$name]=$SECONDS
        [ "$event" = proved ] || continue
        hand=
        [ -z "${proved[$name]:-}" ] || continue
        proved[$name]=1 took=$((SECONDS - since[$name]))
        [ -t 2 ] || tell "crate $place of $2 proved: $name, $took s"
    done < <(events "$1")
    [ ! -t 2 ] || printf '\r\033[K%s: crate %d of %d%s, %d s' "$me" "$place" "$2" "${hand:+: $hand}" $((SECONDS - began)) >&2
}

# Ends the build with all that it has started: rt's own jobs do not hear the terminal's Ctrl-C.
halt() {
    [ -z "$job" ] || kill -TERM -- "-$job" 2> /dev/null || true
    [ -z "$job" ] || wait "$job" 2> /dev/null || true
    rm -rf "$keeper" "$mark.new"
    wipe
}

wipe() { [ ! -t 2 ] || printf '\r\033[K' >&2; }

ended_by() { # SIGNAL
    halt
    tell "interrupted; the crates that were proved need not be proved again"
    trap - EXIT "$1"
    kill -s "$1" $$
}

build() { # KIND NAME FILE...
    local kind=$1 name=$2 what="the program $2" began=$SECONDS status=0 runs=1 keeper='' job='' hand='' place=0 signal crates
    local -A places=() since=() proved=()
    built=$top/target/built/$name
    local mark=$built.mark log=$built.log handed=$built.words
    [ "$kind" = program ] || what="the code of $2" built+=.bc
    command -v rt > /dev/null || stop 2 "no rt on the PATH; it is a part of the Rattle kit, which proves and builds what is run here"
    mapfile -t crates < <(crates_of "$name")
    ! fresh "$mark" "${crates[@]}" || return 0

    tell "proving and building $what, ${#crates[@]} crates; from nothing this takes minutes"
    for hand in "${crates[@]}"; do places[$hand]=$((${#places[@]} + 1)); done
    mkdir -p "${built%/*}"
    rm -f "$built" "$mark" "$handed" "${@:3}"
    trap halt EXIT
    for signal in HUP INT TERM; do
        # shellcheck disable=SC2064
        trap "ended_by $signal" "$signal"
    done
    keeper=$(mktemp -d) # outside the checkout, where rt ci would refuse its links
    [ "$kind" = program ] || stand_in "$(kit)" "$keeper"
    rt version > "$mark.new" # what changes from here on is newer
    set -m
    prove "$kind" "$name" "$keeper" "${crates[@]}" > "$log" 2>&1 < /dev/null &
    job=$!
    set +m
    while [ -n "$runs" ]; do
        sleep 0.5
        kill -0 "$job" 2> /dev/null || runs='' # and then the log is read once more
        progress "$log" "${#crates[@]}"
    done
    wait "$job" || status=$?
    job=
    wipe
    [ "$status" = 0 ] || [ -z "$hand" ] || stop 1 "crate $hand is not proved, so nothing was built; $log has what the prover said"
    [ "$status" = 0 ] || stop 1 "nothing was built, the kit ended with status $status; $log says why"
    case $kind in
        program) cp "$top/crates/$name/out/$name" "$built" ;;
        code) cp "$keeper/kept.words" "$handed" && cp "$keeper/kept.bc" "$built" ;;
    esac || stop 1 "nothing was built: the kit gave no code"
    mv "$mark.new" "$mark"
    halt
    trap - EXIT HUP INT TERM
    tell "built in $((SECONDS - began)) s"
}
