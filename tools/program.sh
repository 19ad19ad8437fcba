# Shell functions of ./list, ./judge, ./linked, ./members and tools/folder, which set `name` and `root` and source this. What rt built is used only where
# it proved the very sources that stand here: a copy is kept below target/, where no run of rt removes it, and target/proved/NAME holds the sums of
# these sources and of the copy.

say() { printf '%s: %s\n' "$name" "$*" >&2; }

# fail STATUS SENTENCE
fail() {
    failed=$1
    shift
    say "$*"
    exit "$failed"
}

version() { printf '%s %s\n' "$name" "$(cat "$root/VERSION")"; }

# Whether a folder that may not be there yet can be written.
can_write() {
    if [ -e "$1" ]; then [ -d "$1" ] && [ -w "$1" ]; else [ -w "$(dirname -- "$1")" ]; fi
}

# Sees that FOLDER and both sheets are there; ends with status 3 where not.
have_sheets() { # FOLDER
    [ -d "$1" ] || fail 3 "$1: there is no such folder"
    missing=
    for sheet in abi classes; do
        if [ ! -e "$1/$sheet.bin" ]; then
            made=
            [ ! -e "$1/$sheet.txt" ] || made=" (tools/sheet make $1/$sheet.txt makes it)"
            say "$1 has no $sheet.bin$made"
            missing=1
        elif [ ! -f "$1/$sheet.bin" ] || [ ! -r "$1/$sheet.bin" ]; then
            say "$1/$sheet.bin cannot be read"
            missing=1
        fi
    done
    [ -z "$missing" ] || exit 3
}

# ---- what rt proves and builds: the programs list, judge and members, the library lgt_linker

# The sum of all that a check of any crate reads.
sources() {
    (cd "$root" && find crates.txt crates -type f ! -path '*/must-fail/*' ! -path 'crates/*/out/*' | LC_ALL=C sort | xargs sha256sum | sha256sum | cut -d' ' -f1)
}

# The file that rt makes of a crate, in the crate's folder.
out_of() { # NAME
    case $1 in lgt_linker) echo crates/lgt_linker/out/liblgt_linker.a ;; *) echo "crates/$1/out/$1" ;; esac
}

# The copy of it that is kept.
made_of() { # NAME
    case $1 in lgt_linker) echo target/staticlib/liblgt_linker.a ;; *) echo "target/bin/$1" ;; esac
}

stamp() { # NAME
    printf '%s %s\n' "$(sources)" "$(sha256sum <"$root/$(made_of "$1")" | cut -d' ' -f1)"
}

is_proved() { # NAME
    [ -r "$root/$(made_of "$1")" ] && [ -r "$root/target/proved/$1" ] && [ "$(cat "$root/target/proved/$1")" = "$(stamp "$1")" ]
}

# Keeps what rt has just made of a crate, which it proved from the sources whose sum is given.
keep() { # NAME SUM
    made=$root/$(made_of "$1")
    [ -r "$root/$(out_of "$1")" ] || fail 2 "rt has proved $1 and left no $(out_of "$1"): remove crates/$1/out and run it again"
    [ "$(sources)" = "$2" ] || fail 2 "the sources changed while rt proved them: run it again"
    mkdir -p "$root/target/proved" "$(dirname -- "$made")" &&
        cp "$root/$(out_of "$1")" "$made.new" && mv "$made.new" "$made" || fail 2 "$made cannot be written"
    stamp "$1" >"$root/target/proved/$1"
}

prove() { # NAME
    command -v rt >/dev/null || fail 2 "no rt on the path: it is the Rattle kit's, so put the kit's folder bin on PATH (README.md, Needed)"
    can_write "$root/target" && can_write "$root/crates/$1/out" ||
        fail 2 "nothing can be written in $root, and rt writes crates/*/out there, and this target/: copy the checkout (cp -r) and prove the copy"
    before=$(sources)
    say "rt proves $1: 10 to 20 minutes on two cores, once, and seconds where it is proved already; a line a crate follows"
    # rt builds a program only to run it: without arguments it has nothing to do, or no sheet in its folder.
    case $1 in lgt_linker) verb=lib ;; *) verb=run ;; esac
    mkdir -p "$root/target/proved" && log=$root/target/proved/$1.log && : >"$log"
    (cd "$root/crates/$1" && rt "$verb" 2>&1 </dev/null; echo $? >"$log.status") | while IFS= read -r line; do
        printf '%s\n' "$line" >>"$log"
        case $line in 'rt: '*) printf '%s\n' "$line" >&2 ;; esac
    done
    if [ "$(cat "$log.status")" -ne 0 ]; then
        tail -n 30 "$log" | grep -v '^rt: ' >&2
        fail 2 "$1 is not proved, so it is not run; target/proved/$1.log has all that rt said"
    fi
    keep "$1" "$before"
}

# Programs are compiled for x86-64; on another processor qemu runs them.
run_program() { # NAME WORDS..
    program=$root/target/bin/$1
    shift
    if [ "$(uname -m)" = x86_64 ]; then
        "$program" "$@"
    else
        command -v qemu-x86_64 >/dev/null || fail 2 "$program is compiled for x86-64, and there is no qemu-x86_64 on the path to run it"
        qemu-x86_64 "$program" "$@"
    fi
}

# ---- what cargo builds

# Sets `built` to this folder, or, where it cannot be written, to one of the user's cache, or to a temporary one.
build_in() { # FOLDER
    built=$1
    if ! can_write "$built"; then
        built=${XDG_CACHE_HOME:-${HOME:-/nonexistent}/.cache}/dautzeki
        if ! mkdir -p "$built" 2>/dev/null; then
            built=$(mktemp -d) || fail 2 "neither the checkout nor a cache folder nor a temporary one can be written"
            trap 'rm -rf "$built"' EXIT
        fi
    fi
}

# Builds the model's program, oracle/folder, where that is not done, and sets `model` to its path.
build_model() {
    command -v cargo >/dev/null ||
        fail 2 "no cargo on the path: it builds the model (Rust 1.95 was tried), which stands in where the program is not proved (--prove)"
    build_in "$root/oracle/target"
    [ -x "$built/release/folder" ] || say "cargo builds the model, once: some five seconds of processor time"
    (cd "$root/oracle" && CARGO_TARGET_DIR=$built cargo build --offline --locked --release --quiet -p folder) >&2 ||
        fail 2 "cargo could not build oracle/folder"
    model=$built/release/folder
}
