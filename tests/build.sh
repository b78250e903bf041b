# Builds what the scripts beside the crates need: what rt proves and makes of a crate, copied to target/bin and target/staticlib,
# and the test programs, made by rustc alone in target/tests. Read by those scripts (`. tests/build.sh`), from the root of the
# repository.
out=target/tests
flags="--edition 2021 -O -C overflow-checks=on"

# newer TARGET SOURCE..: is the target missing, or older than a file among the sources? What rt keeps of a crate, its out/, is none.
newer() {
    local target=$1
    shift
    [ ! -e "$target" ] || [ -n "$(find "$@" -name out -prune -o -newer "$target" -type f -print -quit)" ]
}

# take CRATE MADE TARGET WORD: where sources are newer than TARGET, copies crates/CRATE/out/MADE to it; `rt WORD` in the crate's folder
# proves the crate and makes that, unless rt left it there since the sources changed. What rt says stays in target/log.
take() {
    local crate=$1 made=crates/$1/out/$2 target=$3 word=$4 log=target/log/$1.built
    newer "$target" crates.txt crates || return 0
    mkdir -p target/log "$(dirname "$target")" || return 1
    if newer "$made" crates.txt crates; then
        echo "proving and building $crate, which takes some ten minutes the first time" >&2
        if ! (cd "crates/$crate" && rt "$word") </dev/null >"$log" 2>&1; then
            tail -n 20 "$log" >&2
            echo "$crate could not be built; $log has the reasons" >&2
            return 1
        fi
    fi
    cp "$made" "$target"
}

# find_replay: sets `replay` to the program that answers cases; LOOPGARRET_REPLAY may name another
find_replay() {
    replay=${LOOPGARRET_REPLAY:-}
    [ -z "$replay" ] || return 0
    replay=target/bin/replay
    take replay replay "$replay" run
}

# build_library CRATE NAME: target/staticlib/libNAME.a, the static library that rt makes of the crate
build_library() {
    take "$1" "lib$1.a" "target/staticlib/lib$2.a" lib
}

# build_engine: the engine as a library; sets `engine` to it. LOOPGARRET_ENGINE may name another.
build_engine() {
    engine=${LOOPGARRET_ENGINE:-}
    [ -z "$engine" ] || return 0
    engine=$PWD/target/staticlib/libengine.a
    build_library engine_c engine
}

build_common() {
    mkdir -p "$out"
    if newer "$out/libcommon.rlib" tests/common.rs tests/protocol.rs tests/generator tests/reference; then
        rustc $flags --crate-type rlib --crate-name common -o "$out/libcommon.rlib" tests/common.rs
    fi
}

# build_program NAME SOURCE_FOLDER [FLAG..]: the program target/tests/NAME from the folder's main.rs
build_program() {
    local name=$1 folder=$2
    shift 2
    build_common
    if newer "$out/$name" "$folder" "$out/libcommon.rlib"; then
        rustc $flags --crate-name "$name" -o "$out/$name" -L dependency="$out" --extern common="$out/libcommon.rlib" "$@" "$folder/main.rs"
    fi
}

# build_oracle [SOURCE]: the Rust that was ported, into target/oracle. SOURCE is a folder with its script `build`: the
# argument, or LOOPGARRET_ORACLE, or shared/oracle beside the repository. Status 1 where there is none.
build_oracle() {
    local source=${1:-${LOOPGARRET_ORACLE:-../shared/oracle}}
    if [ ! -x "$source/build" ]; then
        echo "the Rust that was ported is not at hand: there is no $source/build" >&2
        return 1
    fi
    if newer target/oracle/oracle "$source"; then
        mkdir -p target
        "$source/build" "$PWD/target/oracle"
    fi
}

# build_native NAME SOURCE_FOLDER [FLAG..]: a program that calls the engine in its own process, and the Rust too where it is
# at hand; sets `program` to it
build_native() {
    local name=$1 folder=$2
    shift 2
    local how=without_rust with="--cfg without_rust" rust=
    if build_oracle; then
        how=with_rust rust=target/oracle/libpl_0.rlib with="-L target/oracle --extern pl_0=target/oracle/libpl_0.rlib"
    fi
    build_engine
    build_common
    local native=$out/libnative_$how.rlib
    if newer "$native" tests/native "$out/libcommon.rlib" $rust; then
        rustc $flags --crate-type rlib --crate-name native -o "$native" --extern common="$out/libcommon.rlib" $with tests/native/lib.rs
    fi
    program=$out/${name}_$how
    if newer "$program" "$engine" "$native" || [ "$(cat "$program.engine" 2>/dev/null)" != "$engine" ]; then
        rm -f "$program"
    fi
    build_program "${name}_$how" "$folder" --extern native="$native" $with -C link-arg="$engine" "$@"
    echo "$engine" >"$program.engine"
}
