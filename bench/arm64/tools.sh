# Sourced at the root of the repository by bench/arm64.sh and tests/arm64.sh: what builds and runs arm64 programs.
#
# On arm64 it is the machine's own gcc, g++ and cargo. On x86-64 it is Debian's cross compilers and qemu, and a rustc with
# arm64's standard library: the machine's, if it has that, else Debian's rustc-web, unpacked here and not installed.
# Needs once (Debian 12):
#     x86-64: apt-get install qemu-user gcc gcc-aarch64-linux-gnu g++-aarch64-linux-gnu, and cargo
#     arm64:  apt-get install gcc g++ valgrind, and cargo
# What is fetched and built stays below target/arm64.
place=$PWD/target/arm64
triple=aarch64-unknown-linux-gnu
case $(uname -m) in
aarch64) cross='' run='' host=arm64 ;;
x86_64)
    cross=aarch64-linux-gnu-
    # a processor without extensions, so that the C library's choices are the same everywhere
    run="qemu-aarch64 -cpu cortex-a72 -L /usr/aarch64-linux-gnu"
    host=amd64
    ;;
*)
    echo "arm64: neither arm64 nor x86-64" >&2
    exit 2
    ;;
esac
for tool in cargo "${cross}gcc" "${cross}g++" ${run%% *}; do
    if ! command -v "$tool" >/dev/null; then
        echo "arm64: $tool is not there; bench/arm64/tools.sh says what to install" >&2
        exit 2
    fi
done

# Debian's lists, with both machines and sources, in a folder of their own: the machine's settings stay as they are
debian() {
    if [ ! -e "$place/apt/done" ]; then
        mkdir -p "$place/apt/state/lists/partial" "$place/apt/cache/archives/partial"
        : >"$place/apt/status"
        key=signed-by=/usr/share/keyrings/debian-archive-keyring.gpg
        cat >"$place/apt/sources.list" <<L
deb [$key] http://deb.debian.org/debian bookworm main
deb-src [$key] http://deb.debian.org/debian bookworm main
deb [$key] http://deb.debian.org/debian-security bookworm-security main
L
        cat >"$place/apt/apt.conf" <<C
APT::Architecture "$host"; APT::Architectures { "amd64"; "arm64"; }; APT::Sandbox::User "root";
Dir::State "$place/apt/state"; Dir::State::status "$place/apt/status"; Dir::Cache "$place/apt/cache";
Dir::Etc::sourcelist "$place/apt/sources.list"; Dir::Etc::sourceparts "-";
C
        APT_CONFIG=$place/apt/apt.conf apt-get -qq update
        touch "$place/apt/done"
    fi
    APT_CONFIG=$place/apt/apt.conf apt-get -qq "$@"
}

# a rustc for arm64, as RUSTC, and its rustdoc
rust() {
    if [ -d "$(rustc --print target-libdir --target $triple 2>/dev/null)" ]; then
        return
    fi
    export RUSTC=$place/rust/rustc RUSTDOC=$place/rust/rustdoc
    if [ ! -x "$RUSTDOC" ]; then
        mkdir -p "$place/rust/packages"
        (cd "$place/rust/packages" && debian download rustc-web libstd-rust-web-1.96 libstd-rust-web-dev \
            libstd-rust-web-dev:arm64 libllvm22)
        for package in "$place"/rust/packages/*.deb; do
            dpkg-deb -x "$package" "$place/rust/root"
        done
        for name in rustc rustdoc; do
            cat >"$place/rust/$name" <<R
#!/bin/sh
LD_LIBRARY_PATH=$place/rust/root/usr/lib/x86_64-linux-gnu exec $place/rust/root/usr/bin/$name "\$@"
R
            chmod +x "$place/rust/$name"
        done
    fi
}

# Esri's library as an archive, built so that it does not fuse multiply and add (docs/DIFFERENCES.md, 1.2)
esri() {
    [ ! -e "$place/esri/libLerc.a" ] || return 0
    mkdir -p "$place/esri/objects"
    (cd "$place/esri" && debian source --download-only lerc=4.0.0+ds-2 && tar xf lerc_*.orig.tar.xz)
    source=$place/esri/lerc-4.0.0/src/LercLib
    find "$source" -name '*.cpp' | while read -r file; do
        "${cross}g++" -O2 -ffp-contract=off -fPIC -std=c++17 -I"$source/include" -I"$source" -c "$file" \
            -o "$place/esri/objects/$(basename "$file" .cpp).o"
    done
    "${cross}ar" rcs "$place/esri/libLerc.a" "$place"/esri/objects/*.o
}

# the proved reader, target/native/liblerc_c.a
archive() {
    tools/archive.sh --check target/native/liblerc_c.a || bench/native.sh lerc_c
}

rust
esri
archive
export CARGO_TARGET_AARCH64_UNKNOWN_LINUX_GNU_LINKER=${cross}gcc
[ -z "$run" ] || export CARGO_TARGET_AARCH64_UNKNOWN_LINUX_GNU_RUNNER=$run
export CARGO_TARGET_AARCH64_UNKNOWN_LINUX_GNU_RUSTFLAGS="-L native=$place/esri -C link-arg=-lstdc++ -C link-arg=-lm"
